"""DEFINE lines beside settings: what such lines set has the effect of the same settings, in marks, notes, names and messages."""
import functools
import json
import random
import re

from command import answer, answer_beside
from parsing import parsed
from records import record
from tally import chosen

FILES = 60
NAMES = ["BOARD", "CELLS", "LAMP", "WEEK"]
LITERALS = ["0", "1", "2", "8", "0x8", "TRUE", "'SPAR'", '"x"', "L'x'", "''", "18446744073709551615"]
OPERATORS = ["==", "!=", "<", "+", "AND", "OR", "/", "-"]
# What a message adds on a macro that a line sets.
SET = re.compile(r"; \$\((\w+)\) is set in line (\d+)")


def head(choose, share):
    """Groups of one line that sets a macro, of which some are not taken: the lines, and name, value and number of each that is kept. This
    share of the values is that of a macro above."""
    lines, kept = [], []
    for _ in range(choose.randint(1, 8)):
        name, blank, is_taken = choose.choice(NAMES), choose.choice(["", "  ", "\t"]), choose.random() < 0.7
        values = {each: value for each, value, _ in kept}
        text = value = choose.choice(LITERALS)
        if values and choose.random() < share:
            used = choose.choice(sorted(values))
            text, value = "$(%s)" % used, values[used]
        lines += ["!if %d" % is_taken, "%sDEFINE %s%s=%s%s # set" % (blank, name, blank, blank, text), "!endif"]
        if is_taken:
            kept.append((name, value, len(lines) - 1))
    return lines, kept


def tail(choose):
    """Groups whose conditions have macros in them."""
    lines = []
    for number in range(choose.randint(1, 4)):
        left, right = "$(%s)" % choose.choice(NAMES), choose.choice(["$(%s)" % choose.choice(NAMES), choose.choice(LITERALS)])
        condition = "%s %s %s" % (left, choose.choice(OPERATORS), right)
        first = choose.choice(["!if %s" % condition, "!if (%s) != 0" % condition, "!ifdef " + choose.choice(NAMES)])
        lines += [first, "line %d" % number, "!else", "other %d" % number, "!endif"]
    return lines


def selected(lines, values):
    """What is said of the file of these lines, under these settings."""
    options = [word for name, value in values.items() for word in ("-D", "%s=%s" % (name, value))]
    text = "".join(line + "\n" for line in lines).encode()
    return parsed(answer(["select", "--json", *options, "-"], input=text)[0])["files"][0]


def of_lines(refusal):
    """A refusal without what its hint says of lines, and these lines."""
    hint = refusal["hint"] or ""
    return {**refusal, "hint": SET.sub("", hint)}, {name: int(line) for name, line in SET.findall(hint)}


def like_settings():
    """Below lines that set macros, and without them under the same settings, there are the same marks, notes and refusals. A message on
    values names the lines that set them."""
    choose, refused = random.Random(6), 0
    for _ in range(FILES):
        (lines, kept), rest = head(choose, 0.3), tail(choose)
        what = repr("\n".join(lines + rest))
        after, alone = selected(lines + rest, {}), selected(["x"] * len(lines) + rest, {name: value for name, value, _ in kept})
        if alone["refusal"]:
            refused += 1
            got, named = of_lines(after["refusal"] or {"hint": "accepted"})
            yield "the refusal of %s" % what, got, alone["refusal"]
            text = (lines + rest)[alone["refusal"]["line"] - 1]
            yield "its lines in %s" % what, named, {name: number for name, _, number in kept if "$(%s)" % name in text}
            continue
        yield "the marks of %s" % what, after["marks"][len(lines):], alone["marks"][len(lines):]
        yield "the operators of %s" % what, after["operators"], alone["operators"]
        yield "the notes of %s" % what, [each for each in after["notes"] if each["line"] > len(lines)], alone["notes"]
    yield "some are refused, and some are not", 0 < refused < FILES, True


@functools.cache
def value(literal):
    return json.dumps(parsed(answer(["eval", "--json", "--", literal])[0])["value"])


def over_settings():
    """Lines that set macros win over settings, with a note on each that gets another value; and names have the values that are set."""
    choose, noted = random.Random(7), 0
    for _ in range(FILES):
        (lines, kept), rest = head(choose, 0), tail(choose)
        given = {name: choose.choice(LITERALS) for name, *_ in kept}
        what = "%r with %s" % ("\n".join(lines + rest), given)
        after, beside = selected(lines + rest, {}), selected(lines + rest, given)
        yield "the marks of %s" % what, beside["marks"], after["marks"]
        if after["refusal"] is None:
            found = {each["name"]: each["line"] for each in beside["notes"] if each["kind"] == "define-overrides"}
            others = [(name, number) for name, each, number in reversed(kept) if value(each) != value(given[name])]
            yield "the notes of %s" % what, found, dict(others)
            noted += bool(found)
        listed = parsed(answer(["names", "--json", "-"], input="".join(line + "\n" for line in lines).encode())[0])["names"]
        got = {(each["name"], json.dumps(line["value"]), line["line"]) for each in listed for line in each["defined"] if line["read"]}
        yield "the values of %s" % what, got, {(name, value(each), number) for name, each, number in kept}
    yield "some have notes, and some have none", 0 < noted < FILES, True


def full_table():
    """With as many settings as a table holds, and as many macros as lines can set, messages, notes and names have them all."""
    table = b"".join(record(b"T%04d" % each, 0, each.to_bytes(8, "little")) for each in range(512))
    lines = ["DEFINE A%d = $(T%04d) * 2" % (each, each) for each in range(63)] + ["DEFINE T0511 = $(A62) + $(T0510)"]
    said = "the value is the number %d; a comparison, as `(..) != 0`, gives 0 or 1"
    for condition, wanted in (("$(T0510)", said % 510),
                              ("$(T0511) + $(A1)", said % 636 + "; $(T0511) is set in line 64; $(A1) is set in line 2")):
        text = "\n".join(lines + ["!if " + condition, "!endif"]).encode()
        got = answer_beside({"a.bin": table, "a.dsc": text}, ["select", "-t", "a.bin", "a.dsc"])
        yield "a message on %s" % condition, (got[0], got[1].decode().splitlines()[-1].strip(), got[2]), (b"", wanted, 1)
    files = {"a.bin": table, "a.dsc": "\n".join(lines).encode()}
    errors = answer_beside(files, ["select", "-t", "a.bin", "a.dsc"])[1].decode()
    yield "a note", errors.split(": here")[0], "a.dsc:64:8: note: `DEFINE` overrides the setting of T0511 (-t a.bin)"
    listed = parsed(answer_beside(files, ["names", "--json", "-t", "a.bin", "a.dsc"])[0])["names"]
    found = {each["name"]: [line["value"] for line in each["defined"]] for each in listed}
    values = {"T0511": 634, **{"A%d" % each: 2 * each for each in range(63)}}
    wanted = {name: [{"kind": "number", "number": each, "text": str(each)}] for name, each in values.items()}
    yield "names", found, {**wanted, **{"T%04d" % each: [] for each in [*range(63), 510]}}


def shapes():
    """The command sees a shape where the library does: a line that sets a macro is among the names, with 22 the message says which slip it
    is, and with any other refusal the name is listed."""
    choose, met = random.Random(8), set()
    words, blanks = ["DEFINE"] * 3 + ["DEFINED", "define", "#DEFINE"], ["", " ", "\t "]
    names = ["A"] * 6 + ["A_1", "_A", "1A", "Aa", "a", "$(A)", "A.B", "A" * 64, "A" * 65, ""]
    parts = [blanks, words, blanks, names, blanks, ["=", "=", "=", "==", "", ":="], [" 1", "", "@", "'x'", "#"]]
    for _ in range(2 * FILES):
        line = "".join(map(choose.choice, parts)).encode()
        marks, errors, status = answer(["select", "--marks", "--quiet", "-"], input=line)
        listed = bool(parsed(answer(["names", "--json", "-"], input=line)[0])["names"])
        if status == 0:
            met.add(marks)
            yield "names of %r" % line, listed, marks == b"6\n"
        else:
            is_shape = b" refused (22): " in errors
            met.add(is_shape)
            yield "the message on %r" % line, (b"write `DEFINE NAME = expression`: " in errors, listed), (is_shape, not is_shape)
    yield "all sorts are met", met, {b"1\n", b"6\n", True, False}


def at_the_limits():
    """Where a file has no room for the ends of its open groups, a message has no values, and is given all the same."""
    said = "the value is the number 2; a comparison, as `(..) != 0`, gives 0 or 1; $(A) is set in line 4095"
    for groups, hint in ((0, [said]), (15, [])):
        lines = ["!if 1"] * groups + ["DEFINE A = 2"] * (4095 - groups) + ["!if $(A)"]
        output, errors, status = answer(["select", "-"], input="\n".join(lines).encode())
        refused = ["-:4096:1: refused (13): a condition has to be the number 0 or the number 1", "!if $(A)", "^"]
        yield "%d open groups" % groups, (output, [line.strip() for line in errors.decode().splitlines()], status), (b"", refused + hint, 1)


def checks():
    for part in (like_settings, over_settings, full_table, shapes, at_the_limits):
        if chosen("defined_" + part.__name__, "defined"):
            yield from part()
