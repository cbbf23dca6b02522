"""The editions, as the command shows them: what the new one accepts, the old one accepts with the same answer; and where --warn-old has
notes on a file, the new edition refuses it at the first of them, and accepts it once all of them are followed."""
import random
import re

from command import DATUM_TYPES, answer
from expressions import EXPRESSIONS, LITERALS, NAMED, NUMBERED
from tally import chosen

FILES = 150
SETTINGS = ["-D", "SPAR=SPAR", "-D", "WEEK=3", "-D", "g.Cells=8", "-D", "NAME=L'Seal'"]
OPERATORS = [" == ", " != ", " EQ ", " NE ", "==", "!=\t"]
# What is a string of its own bytes in the old edition, and what only looks like it.
WORDS = ["SPAR", "_", "x1", "L", "IN", "tRUE", "And", "LABEL", "A_very_long_word_that_has_more_bytes_than_a_record_holds_for_one_name"]
OTHERS = ["'SPAR'", '"SPAR == x"', "$(SPAR)", "'a # b'"]
NOTE = re.compile(r"-:(\d+):(\d+): note: the new edition refuses (?:the bare word )?(\S+?)(?: after `!ifn?def`)?; write (\S+)")


def accepted_by_both():
    """An expression that the new edition accepts has the same value and bytes in the old one."""
    runs = [["eval"]] + [["field", "--datum", datum] for datum in DATUM_TYPES] + [["tokens"]]
    for words in runs:
        some = EXPRESSIONS if words[0] != "field" else NUMBERED + NAMED + LITERALS[:4]
        count = 0
        for expression in some + [b"'a' == 'a'", b"'a' == a", b"1 == b AND 2"]:
            new, old = (answer([*words, "--edition", edition, "--", expression]) for edition in ("new", "old"))
            if new[2] == 0:
                count += 1
                yield "%s of %r" % (" ".join(words), expression), old, new
        yield "some are accepted by %s" % " ".join(words), count > 0, True


def condition(choose, share):
    """A condition of comparisons of strings, joined. This share of them is of the old edition."""
    def comparison():
        right = choose.choice(WORDS if choose.random() < share else OTHERS)
        return choose.choice(OTHERS) + choose.choice(OPERATORS) + right
    return choose.choice([" AND ", " or ", " XOR "]).join(comparison() for _ in range(choose.randint(1, 3)))


def group(choose, share, depth=0):
    """A group of directives with lines and groups in its branches."""
    def lines():
        if depth < 3 and choose.random() < 0.5:
            return group(choose, share, depth + 1)
        return choose.choice([["line %d" % choose.randint(0, 99)], ["\tDEFINE FLAG = %s # 'a' == a" % condition(choose, share)]])
    name = choose.choice(["SPAR", "WEEK", "NOPE"])
    first = choose.choice(["!if %s" % condition(choose, share), "!ifdef %s", "!ifndef\t%s # why"])
    if "%s" in first:
        first %= "$(%s)" % name if choose.random() < share else name
    made = [first] + lines()
    for _ in range(choose.randint(0, 2)):
        made += ["\t" + choose.choice(["!elseif ", "!elif\t"]) + condition(choose, share) + choose.choice(["", " # 'a' == a"])] + lines()
    if choose.random() < 0.5:
        made += ["!else"] + lines()
    return made + ["!endif"]


def followed(text, notes):
    """The text with what the notes say written in each place; from the last on, so that the others stay where they are."""
    lines = text.split("\n")
    for line, column, wrong, right in reversed(notes):
        before, after = lines[line - 1][:column - 1], lines[line - 1][column - 1:]
        if not after.startswith(wrong):
            return "%d:%d: %r is not there" % (line, column, wrong)
        lines[line - 1] = before + right + after[len(wrong):]
    return "\n".join(lines)


def selected(text, *options):
    """Standard output and the lines of standard error of a selection, and its status."""
    output, errors, status = answer(["select", *SETTINGS, *options, "-"], input=text.encode())
    return output, errors.decode().splitlines(), status


def notes_are_right():
    """On random files."""
    choose, refused = random.Random(5), 0
    for _ in range(FILES):
        share = choose.choice([0, 0.1, 0.5])
        text = "\n".join(line for _ in range(3) for line in group(choose, share)) + "\n"
        marks, said, status = selected(text, "--warn-old", "--marks")
        found = [match.groups() for match in map(NOTE.fullmatch, said) if match]
        notes = [(int(line), int(column), wrong, right) for line, column, wrong, right in found]
        new, message, new_status = selected(text, "--edition", "new", "--marks", "--quiet")
        yield "the old edition accepts %r" % text, status, 0
        yield "places in their order in %r" % text, notes, sorted(set(notes))
        yield "the new edition refuses exactly what is noted in %r" % text, new_status, 1 if notes else 0
        if not notes:
            yield "the same marks of %r" % text, new, marks
            continue
        refused += 1
        line, column, wrong, _ = notes[0]
        is_macro = wrong.startswith("$(")
        place = (line, len(text.split("\n")[line - 1]) - len(text.split("\n")[line - 1].lstrip()) + 1 if is_macro else column)
        number = 22 if is_macro else 3
        yield "the first place of %r" % text, message[0].split(": refused")[0], "-:%d:%d" % place
        yield "the first refusal of %r" % text, "refused (%d)" % number in message[0], True
        mended = followed(text, notes)
        for edition in ("new", "old"):
            got = selected(mended, "--edition", edition, "--warn-old", "--marks")
            left = [line for line in got[1] if NOTE.fullmatch(line)]
            yield "the %s edition after all notes of %r" % (edition, text), (got[0], left, got[2]), (marks, [], 0)
    yield "some files are refused by the new edition, and some are not", 0 < refused < FILES, True


def checks():
    for part in (accepted_by_both, notes_are_right):
        if chosen("editions_" + part.__name__, "editions"):
            yield from part()
