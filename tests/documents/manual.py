"""The manual's sections and tables."""
import re

from sessions import read

MANUAL = "docs/LANGUAGE.md"


def sections(document):
    return re.findall(r"^## (.*)$", read(document), re.M)


def cells(line):
    # A bar inside a cell is written with a backslash.
    return [cell.strip().replace("\\|", "|") for cell in re.split(r"(?<!\\)\|", line)[1:-1]]


def rows(section, *heading):
    """The rows of all tables in a section that have this heading, as cells. It ends the test if there is none: nothing would be held
    against the product."""
    text = read(MANUAL).split("\n## %s\n" % section)[1].split("\n## ")[0]
    tables = re.findall(r"^(\|.*)\n\|[-|]+\n((?:\|.*\n)+)", text, re.M)
    found = [cells(line) for head, body in tables if cells(head) == list(heading) for line in body.splitlines()]
    if not found:
        raise SystemExit("%s: no table in '%s' with the heading %s" % (MANUAL, section, " | ".join(heading)))
    return found


def codes(cell):
    """What a cell has in backquotes."""
    return re.findall(r"`(.*?)`", cell)


def meaning(meanings, cell):
    """What the test makes of a cell, or of several, by their exact words; other words end the test."""
    if cell not in meanings:
        raise SystemExit("%s: the test has no meaning for the cell %r" % (MANUAL, cell))
    return meanings[cell]


def matched(pattern, cell):
    """The parts of a cell that has to be of some form; any other ends the test."""
    match = re.fullmatch(pattern, cell)
    if not match:
        raise SystemExit("%s: the cell %r is not of the form %s" % (MANUAL, cell, pattern))
    return match.groups()


def number(text):
    """A number with commas between its thousands."""
    return int(text.replace(",", ""))
