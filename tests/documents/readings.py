"""The readings in docs/DECISIONS.md: their inputs have the answers that their tables give and are among the vectors, and the vectors cite
every reading and no other number. Of all decisions: the index lists them, and the files and must-fail edits that they name exist."""
import functools
import glob
import os
import pickle
import re
import subprocess
import sys
import tokenize

import library
from manual import cells, number
from sessions import ROOT, read

DECISIONS = "docs/DECISIONS.md"
VECTORS = os.path.join(ROOT, "tests", "vectors")
ENTRY = re.compile(r"^### ([RDC]\d+)\. (.*)$", re.M)
# Where a refusal is, in an expression or in a line.
PLACE = re.compile(r"(?: at|,) byte \d+")
ROOM = 16
# Some modules of the vectors have the names of modules of this folder, so they are read in a process of their own.
GATHER = """
import pickle, sys
import evaluation, selection, tokens
inputs = [{each[0] for each in module.VECTORS} for module in (evaluation, tokens, selection)]
pickle.dump([{each for each in kind if len(each) < 2000} for kind in inputs], sys.stdout.buffer)
"""


def entries():
    """Number, title and text of every decision."""
    text = read(DECISIONS)
    starts = list(ENTRY.finditer(text))
    for match, following in zip(starts, starts[1:] + [None]):
        yield match[1], match[2], text[match.end(): following.start() if following else len(text)]


def table(reading, text):
    """The headings of a reading's table and its rows. It ends the test if there is not just one table: another would not be checked."""
    found = re.findall(r"^(\|.*\|)\n\|[-|]+\n((?:\|.*\n)+)", text + "\n", re.M)
    if len(found) != 1:
        raise SystemExit("%s: %s has %d tables" % (DECISIONS, reading, len(found)))
    (head, body), = found
    headings, rows = cells(head), [cells(line) for line in body.splitlines()]
    if tuple(headings[1:]) not in ANSWERS or {len(row) for row in rows} != {len(headings)}:
        raise SystemExit("%s: the test does not know the columns of %s" % (DECISIONS, reading))
    return headings, rows


def expression(cell):
    """The expression of a cell: code, a number of times, or blanks, one part after the other."""
    made = b""
    for part in cell.split(", then "):
        count, code, blanks = re.fullmatch(r"(?:([\d,]+) times )?`([^`]*)`|([\d,]+) blanks", part).groups()
        made += b" " * number(blanks) if blanks else code.encode() * number(count or "1")
    return made


def file(cell):
    """The file of a cell: its lines with a CR or two after them, and an LF between two of them."""
    lines = re.findall(r"`([^`]*)`((?: CR| LF)*)", cell)
    if ", ".join("`%s`%s" % line for line in lines) != cell:
        raise SystemExit("%s: the test cannot make the file %s" % (DECISIONS, cell))
    return b"\n".join(text.encode() + b"\r" * ends.count("CR") + b"\n" * ends.count("LF") for text, ends in lines)


def value_answer(text, edition):
    refusal, offset, (kind, value, count, _, start, length) = library.evaluate(text, b"", edition)
    if refusal:
        return "refused (%d) at byte %d" % (refusal, offset)
    said = "string, %d bytes from byte %d" % (length, start) if kind else str(value)
    return said + (", count %d" % count if count else "")


def tokens_answer(text, edition):
    refusal, offset, found = library.tokens(text, edition)
    said = "%d token%s" % (len(found), "" if len(found) == 1 else "s")
    return "refused (%d) at byte %d, %s" % (refusal, offset, said) if refusal else said


def file_answer(text, edition):
    refusal, line, offset, lines, _, marks = library.select(text, b"", ROOM, edition)
    if refusal:
        return "refused (%d) at line %d, byte %d" % (refusal, line, offset)
    return "marks " + " ".join(map(str, marks[:lines]))


def as_told(said, wanted):
    """An answer, without the byte of its refusal if the table does not give one."""
    return said if PLACE.search(wanted) else PLACE.sub("", said)


# The columns after the inputs: which of them has the answer in each edition.
ANSWERS = {("answer",): {"old": 0, "new": 0}, ("old edition", "new edition"): {"old": 0, "new": 1}}
EDITIONS = {"old": library.OLD, "new": library.NEW}
# Of each heading: how its inputs are made, and their answers. The inputs under another heading are described in words.
IN_WORDS = "input"
KINDS = {"expression": (expression, value_answer), "tokens of": (expression, tokens_answer), "file": (file, file_answer)}


@functools.cache
def vectors():
    """The inputs of the vectors, as the headings name them."""
    done = subprocess.run([sys.executable, "-c", GATHER], env=dict(os.environ, PYTHONPATH=VECTORS), check=True, stdout=subprocess.PIPE)
    return dict(zip(["expression", "tokens of", "file"], pickle.loads(done.stdout)))


def is_vector(heading, text):
    # A file may have an LF at its end in the vectors and none here, and an expression may be there for its tokens alone.
    found = vectors()
    if heading == "file":
        return bool({text, text + b"\n"} & found["file"])
    return text in found["expression"] or text in found["tokens of"]


def cited():
    """The readings that the comments of the vectors cite."""
    for name in sorted(os.listdir(VECTORS)):
        if name.endswith(".py"):
            with open(os.path.join(VECTORS, name), "rb") as source:
                comments = [token.string for token in tokenize.tokenize(source.readline) if token.type == tokenize.COMMENT]
            yield from re.findall(r"\bR\d+\b", " ".join(comments))


def declared():
    """The names of definitions and lemmas."""
    found = set()
    for part in "specs", "proofs":
        for path in glob.glob(os.path.join(ROOT, "crates", "*", part, "*.antt")):
            found |= set(re.findall(r"^ *(?:(?:abbrev|unfoldable|pub) )*(\w+) :", read(os.path.relpath(path, ROOT)), re.M))
    return found


def checks():
    text, found = read(DECISIONS), list(entries())
    readings = {number: entry for number, _, entry in found if number.startswith("R")}
    index = text.split("\n## Index\n")[1].split("\n## ")[0]
    yield "the index", re.findall(r"^- (.*)$", index, re.M), ["%s. %s" % (number, title) for number, title, _ in found]
    for letter in "RDC":
        numbers = [number for number, *_ in found if number.startswith(letter)]
        yield "numbers of %s in order" % letter, numbers, [letter + str(1 + each) for each in range(len(numbers))]
    paths = set(re.findall(r"`((?:bench|cli|crates|docs|include|tests)/[^`\s]*)`", text))
    yield "files that are named and not there", sorted(path for path in paths if not os.path.exists(os.path.join(ROOT, path))), []
    named = set(re.findall(r"`([a-z0-9]+_[a-z0-9]+_[a-z0-9_]+)`", text))
    edits = {os.path.basename(path)[: -len(".edit")] for path in glob.glob(os.path.join(ROOT, "crates/*/must-fail/*.edit"))}
    yield "edits, definitions and lemmas that are named and not there", sorted(named - edits - declared()), []
    yield "readings that no vector cites, and those that are cited and not there", readings.keys() ^ set(cited()), set()
    for reading, entry in readings.items():
        (heading, *answers), rows = table(reading, entry)
        for cell, *given in rows if heading != IN_WORDS else []:
            make, answer = KINDS[heading]
            for edition, column in ANSWERS[tuple(answers)].items():
                wanted = given[column]
                yield "%s, %s, %s edition" % (reading, cell, edition), as_told(answer(make(cell), EDITIONS[edition]), wanted), wanted
            yield "%s, %s is a vector" % (reading, cell), is_vector(heading, make(cell)), True
