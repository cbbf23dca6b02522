"""The JSON of select and names: its members in their order, and nothing that a terminal would obey."""
import json
import tempfile

from command import answer, answer_beside
from folders import content
from parsing import parsed
from tally import chosen

ENCODING = "\ufeff# a\n".encode()
# One note of each kind that a file can have, except UTF-16, which has no line of its own.
KINDS = [("byte-order-mark", 1, 1, None), ("include", 2, 1, None), ("error", 3, 3, None), ("define-overrides", 4, 8, "SPAR"),
         ("unset-macro", 5, 5, "CELS"), ("unset-ifdef", 7, 8, "DEBUG"), ("bare-cr", 9, 2, None), ("nul", 10, 3, None),
         ("define", 11, 1, None), ("define", 12, 1, "LAMP"), ("hidden-directive", 13, 2, None), ("quoted-macro", 14, 6, "BOARD"),
         ("bare-macro", 16, 16, "SPAR"), ("old-word", 16, 16, "SPAR"), ("old-ifdef", 18, 8, "SPAR"), ("hidden-define", 20, 1, None)]
EVERY_KIND = (ENCODING + b"!include x\n  !error y\nDEFINE SPAR = 'x'\n!if $(CELS)\n!endif\n!ifdef DEBUG\n!endif\nb\rc\nde\0\0f\n"
              b"EDK_GLOBAL X.Y = 2\nEDK_GLOBAL LAMP = 1\n \x0c!else\n!if '$(BOARD)' == 'SPAR'\n!endif\n!if $(SPAR) == SPAR\n!endif\n"
              b"!ifdef $(SPAR)\n!endif\n\x0cDEFINE WEEK = 3\n")
# With these options.
NOTED = ["--warn-old", "-D", "SPAR=SPAR"]


def read(output):
    """The one object of an output, or what is wrong with its form."""
    try:
        return parsed(output)
    except ValueError as fault:
        return "%s: %r" % (fault, output)


def in_order(value):
    """A text of a value that shows the order of members."""
    return json.dumps(value, ensure_ascii=True)


def run(subcommand, *words, files=None, input=b""):
    """The object that a run prints, its standard error and its status."""
    output, errors, status = answer_beside(files or {}, [subcommand, "--json", *words], input=input)
    return read(output), errors, status


def file_of(name, lines, kept, operators, marks, notes=(), refusal=None):
    """What is said of one file of a selection."""
    return {"file": name, "lines": lines, "kept": kept, "operators": operators, "marks": marks, "notes": list(notes), "refusal": refusal}


def selection(*files, notes=()):
    return {"format": 1, "command": "select", "files": list(files), "notes": list(notes)}


def first_file(found):
    """What is said of the first file, if anything is."""
    try:
        return found["files"][0]
    except (KeyError, IndexError, TypeError):
        return {"notes": [], "refusal": found}


def note(kind, file, line, column, name, text):
    return {"kind": kind, "file": file, "line": line, "column": column, "name": name, "text": text}


def refusal(number, meaning, line, column, offset, hint):
    return {"number": number, "meaning": meaning, "line": line, "column": column, "offset": offset, "hint": hint}


DIVISOR = refusal(12, "zero divisor", 2, 7, 6, "`/` divides 1 by 0")
DIVIDES = b"x\n!if 1 / 0\n!endif\n"
DIVISOR_MESSAGE = b"bad.dsc:2:7: refused (12): zero divisor\n    !if 1 / 0\n          ^\n    `/` divides 1 by 0\n"


def select_answers():
    """A selection has its counts and marks."""
    for text, wanted in ((b"!if 1 + 1 == 2\na\n!else\nb\n!endif\n", file_of("a.dsc", 5, 1, 2, [4, 1, 3, 0, 5])),
                         (b"DEFINE A = 1 + 1\n!if $(A) == 2\na\n!endif\n", file_of("a.dsc", 4, 2, 2, [6, 4, 1, 5])),
                         (b"a\n!if 0\n!if 1\n!endif\n!endif\nb", file_of("a.dsc", 6, 2, 0, [1, 3, 2, 2, 5, 1])),
                         (b"", file_of("a.dsc", 0, 0, 0, []))):
        got, errors, status = run("select", "a.dsc", files={"a.dsc": text})
        yield "select %r" % text, (in_order(got), errors, status), (in_order(selection(wanted)), b"", 0)


def select_several_files():
    """Files come in the order given, refused ones too."""
    files = {"a.dsc": b"a\n", "b.dsc": b"!if 0\n!endif\n", "bad.dsc": DIVIDES}
    first, second = file_of("a.dsc", 1, 1, 0, [1]), file_of("b.dsc", 2, 0, 0, [3, 5])
    got, errors, status = run("select", "b.dsc", "-", "a.dsc", files=files, input=b"a\n")
    wanted, summary = selection(second, {**first, "file": "-"}, first), b"korzhinay: 3 files, 2 of 4 lines kept, 0 notes\n"
    yield "select from three files", (in_order(got), errors, status), (in_order(wanted), summary, 0)
    got, errors, status = run("select", "a.dsc", "bad.dsc", "b.dsc", files=files)
    wanted = selection(first, file_of("bad.dsc", 3, 0, 0, [], refusal=DIVISOR), second)
    summary = b"korzhinay: 3 files, 1 refused, no lines written, 0 notes\n"
    yield "one of three is refused", (in_order(got), errors, status), (in_order(wanted), DIVISOR_MESSAGE + summary, 1)


def select_refusals():
    """A refusal has the place of its message, the offset of the library and what helps."""
    for text, lines, wanted in (
            (DIVIDES, 3, DIVISOR),
            (b"a\n\t!if \"\xc3\xa9\" + 1\n!endif\n", 3,
             refusal(10, "an operator does not take operands of these kinds", 2, 11, 10,
                     "`+` takes two numbers, and has a string and a number")),
            (b"  !if 2\n!endif\n", 2,
             refusal(13, "a condition has to be the number 0 or the number 1", 1, 3, 0,
                     "the value is the number 2; a comparison, as `(..) != 0`, gives 0 or 1")),
            (b"  DEFINE A\n", 1, refusal(22, "the text after the line's word is not what it takes", 1, 3, 0,
                                        "write `DEFINE NAME = expression`: no `=` follows A")),
            (b" DEFINE A = 1 | 2\n", 1, refusal(8, "`|` or `||` stands outside parentheses", 1, 15, 14,
                                               "put parentheses round the expression: `(1 | 2)`")),
            (b" DEFINE A = '%s'\n" % (b"x" * 57), 1,
             refusal(28, "DEFINE sets a string of more than 56 bytes", 1, 2, 0,
                     "it has 57 bytes; if a condition uses A, shorten it; if not, move the line to a file that `!include` names")),
            (b"x" * 65_537, 1, refusal(14, "the file is longer than 65,536 bytes", 1, 1, 0, None))):
        got, errors, status = run("select", "bad.dsc", files={"bad.dsc": text})
        message = b"bad.dsc:%d:%d: refused (%d): %s\n" % (wanted["line"], wanted["column"], wanted["number"], wanted["meaning"].encode())
        wanted = selection(file_of("bad.dsc", lines, 0, 0, [], refusal=wanted))
        yield "select %r" % text[:40], (in_order(got), errors.startswith(message), status), (in_order(wanted), True, 1)


def select_notes():
    """The notes are in the object, and on standard error as without --json."""
    text = b"!if $(CELS) > 4\n  Big.inf\n!endif\n"
    plain = answer(["select", "-D", "CELLS=8", "-"], input=text)[1]
    unset = note("unset-macro", "-", 1, 5, "CELS", "$(CELS) is not set, so it is the number 0; CELLS is set")
    unused = note("unused-settings", None, 0, 0, None, "no read directive names these settings: CELLS (-D CELLS=8)")
    wanted = in_order(selection(file_of("-", 3, 0, 1, [3, 0, 5], [unset]), notes=[unused]))
    got, errors, status = run("select", "-D", "CELLS=8", "-", input=text)
    yield "notes", (in_order(got), errors, status), (wanted, plain, 0)
    got, errors, status = run("select", "-D", "CELLS=8", "--quiet", "-", input=text)
    yield "no notes with --quiet", (in_order(got), errors, status), (in_order(selection(file_of("-", 3, 0, 1, [3, 0, 5]))), b"", 0)


def select_kinds_of_notes():
    """Every kind of note has its name and its place, and the text that standard error has."""
    lines = answer(["select", *NOTED, "-"], input=EVERY_KIND)[1].decode().splitlines()
    got, errors, status = run("select", *NOTED, "-", input=EVERY_KIND)
    found = first_file(got)["notes"]
    yield "notes on standard error", (errors.decode().splitlines(), status), (lines, 0)
    yield "kinds of notes", [(each["kind"], each["line"], each["column"], each["name"]) for each in found], KINDS
    yield "texts of notes", ["%s:%d:%d: note: %s" % (each["file"], each["line"], each["column"], each["text"]) for each in found], lines
    yield "members of notes", {tuple(each) for each in found}, {("kind", "file", "line", "column", "name", "text")}
    got, errors, status = run("select", "-", input="\ufeffa\n".encode("utf-16-le"))
    found = first_file(got)["notes"]
    text = "this looks like UTF-16; convert it to UTF-8"
    wanted = in_order([note("utf-16", "-", 1, 1, None, text)]), "-:1:1: note: %s\n" % text, 0
    yield "the kind of UTF-16", (in_order(found), errors.decode(), status), wanted


def select_notes_of_a_refused_file():
    """A refused file has the notes of its encoding and of hidden directives."""
    text = ENCODING + b"!if $(CELS)\n!endif\n\x0b!else\n!endif\n"
    got, errors, status = run("select", "-", input=text)
    kinds = [each["kind"] for each in first_file(got)["notes"]]
    wanted = ["byte-order-mark", "hidden-directive"], answer(["select", "-"], input=text)[1], 1
    yield "notes of a refused file", (kinds, errors, status), wanted
    got, errors, status = run("select", "--quiet", "-", input=text)
    yield "no notes of a refused file with --quiet", (first_file(got)["notes"], b"note" in errors, status), ([], False, 1)


def select_strict():
    """Under --strict a note leaves nothing on standard output."""
    output, errors, status = answer(["select", "--json", "--strict", "-"], input=b"!ifdef DEBUG\n!endif\n")
    message = b"-:1:8: note: DEBUG is not set, so `!ifdef` is false\nkorzhinay: 1 note under --strict, so nothing is written\n"
    yield "notes under --strict", (output, errors, status), (b"", message, 1)
    files = {"bad.dsc": DIVIDES, "a.dsc": b"!ifdef DEBUG\n!endif\n"}
    output, errors, status = answer_beside(files, ["select", "--json", "--strict", "a.dsc", "bad.dsc"])
    wanted = (b"a.dsc:1:8: note: DEBUG is not set, so `!ifdef` is false\n" + DIVISOR_MESSAGE
              + b"korzhinay: 2 files, 1 refused, no lines written, 1 note\nkorzhinay: 1 note under --strict, so nothing is written\n")
    yield "a note and a refusal under --strict", (output, errors, status), (b"", wanted, 1)
    got, errors, status = run("select", "--strict", "-", input=b"a\n")
    yield "no notes under --strict", (in_order(got), errors, status), (in_order(selection(file_of("-", 1, 1, 0, [1]))), b"", 0)


def select_to_a_file():
    """The object goes to OUT as any other answer."""
    with tempfile.TemporaryDirectory() as folder:
        got = answer(["select", "--json", "-o", "out.json", "-"], folder=folder, input=b"a\n")
        written = read(content(folder, "out.json") or b"")
    yield "an object in a file", (got, in_order(written)), ((b"", b"", 0), in_order(selection(file_of("-", 1, 1, 0, [1]))))


def names_of_files():
    """The name of a file comes back: as text, and as bytes where it is no text."""
    for name in ('a"b\\c.dsc', "d\x1b\x7f\t.dsc", "e\u202e\u2028\u00ad\u0085.dsc", "\u65e5\U0001f6df.dsc"):
        got, errors, status = run("select", name, files={name: b"a\n"})
        yield "a file %r" % name, (in_order(got), errors, status), (in_order(selection(file_of(name, 1, 1, 0, [1]))), b"", 0)
    got, errors, status = run("select", b"lat\xe9.dsc", files={b"lat\xe9.dsc": b"!if $(CELS)\n!endif\n"})
    names = {"file": "lat\ufffd.dsc", "file_hex": "6c6174e92e647363"}
    unset = {"kind": "unset-macro", **names, "line": 1, "column": 5, "name": "CELS", "text": "$(CELS) is not set, so it is the number 0"}
    wanted = {**names, "lines": 2, "kept": 0, "operators": 0, "marks": [3, 5], "notes": [unset], "refusal": None}
    message = b"lat\\xE9.dsc:1:5: note: $(CELS) is not set, so it is the number 0\n"
    yield "a file name that is no text", (in_order(got), errors, status), (in_order(selection(wanted)), message, 0)


def nothing_without_an_answer():
    """With the status 2 nothing is on standard output."""
    for words in (["nothing.dsc"], ["-D", "a=1", "-"], ["-s", "nothing.settings", "-"], ["--other", "-"]):
        for subcommand in ("select", "names"):
            output, errors, status = answer([subcommand, "--json"] + words, input=b"a\n")
            yield "%s --json %s" % (subcommand, " ".join(words)), (output, errors.startswith(b"korzhinay"), status), (b"", True, 2)


def listing(files, *names):
    return {"format": 1, "command": "names", "files": [{"file": file, "refusal": each} for file, each in files], "names": list(names)}


def name_of(name, sort, value, *places, defined=()):
    found = [{"file": file, "line": line, "column": column, "read": read} for file, line, column, read in places]
    lines = [{"file": file, "line": line, "column": column, "read": read, "value": set_to} for file, line, column, read, set_to in defined]
    return {"name": name, "sort": sort, "value": value, "places": found, "defined": lines}


def number(value):
    return {"kind": "number", "number": value, "text": str(value)}


def names_answers():
    """Every place of a name is there, with its column and whether it is read."""
    files = {"a.dsc": b"!if $(WEEK) > 3 AND $(WEEK) < 6\n!elseif $(BOARD) == L'x'\n!endif\n",
             "b.dsc": b"  !ifdef $(WEEK)\n!endif\n!ifndef NOPE\n!endif\n"}
    wanted = listing(
        [("a.dsc", None), ("b.dsc", None)],
        name_of("BOARD", "macro", {"kind": "wide string", "text": "x"}, ("a.dsc", 2, 9, True)),
        name_of("NOPE", "macro", None, ("b.dsc", 3, 9, True)),
        name_of("WEEK", "macro", number((1 << 64) - 1), ("a.dsc", 1, 5, True), ("a.dsc", 1, 21, True), ("b.dsc", 1, 10, True)))
    got, errors, status = run("names", "-D", "WEEK=18446744073709551615", "-D", "BOARD=L'x'", "a.dsc", "b.dsc", files=files)
    yield "names of two files", (in_order(got), errors, status), (in_order(wanted), b"", 0)
    got, errors, status = run("names", "-D", "a.b=SPAR", "-", input=b"!ifdef WEEK\n\t!if a.b == 'SPAR'\n!endif\n!endif\n")
    wanted = listing([("-", None)], name_of("WEEK", "macro", None, ("-", 1, 8, True)),
                     name_of("a.b", "PCD", {"kind": "string", "text": "SPAR"}, ("-", 2, 6, False)))
    yield "a name that is not read", (in_order(got), errors, status), (in_order(wanted), b"", 0)
    got, errors, status = run("names", "-", input=b"a\n")
    yield "no names", (in_order(got), errors, status), (in_order(listing([("-", None)])), b"", 0)


def names_refusals():
    """Where a file is refused before it is known whether a name is read, that is null."""
    text = DIVIDES + b"!if $(WEEK)\n!endif\n"
    got, errors, status = run("names", "-D", "WEEK=0", "bad.dsc", files={"bad.dsc": text})
    wanted = listing([("bad.dsc", DIVISOR)], name_of("WEEK", "macro", number(0), ("bad.dsc", 4, 5, None)))
    yield "names of a refused file", (in_order(got), errors, status), (in_order(wanted), DIVISOR_MESSAGE, 1)


def names_defined():
    """Of a line that sets a name there is the value that it sets, unless it is not read, or that is not known."""
    text = b"DEFINE A = $(B) + 1\n!if 0\n\tDEFINE\tA\t=\t2\n!endif\n  DEFINE B = L'x'\nDEFINE A = $(A) + 1\n"
    wanted = listing([("-", None)],
                     name_of("A", "macro", None, ("-", 6, 12, True),
                             defined=[("-", 1, 8, True, number(4)), ("-", 3, 9, False, None), ("-", 6, 8, True, number(5))]),
                     name_of("B", "macro", number(3), ("-", 1, 12, True),
                             defined=[("-", 5, 10, True, {"kind": "wide string", "text": "x"})]))
    got, errors, status = run("names", "-D", "B=3", "-", input=text)
    yield "names that lines set", (in_order(got), errors, status), (in_order(wanted), b"", 0)
    wanted = listing([("bad.dsc", {**DIVISOR, "line": 3})], name_of("A", "macro", None, defined=[("bad.dsc", 1, 8, None, None)]))
    got, errors, status = run("names", "bad.dsc", files={"bad.dsc": b"DEFINE A = 1\n" + DIVIDES})
    message = DIVISOR_MESSAGE.replace(b":2:", b":3:")
    yield "names that lines of a refused file set", (in_order(got), errors, status), (in_order(wanted), message, 1)


def names_that_are_no_text():
    """Bytes of a value or of a file name that are no text are there in hexadecimal."""
    got, errors, status = run("names", "-D", b'A="lat\xe9"', b"b\xff.dsc", files={b"b\xff.dsc": b"!ifdef A\n!endif\n"})
    names = {"file": "b\ufffd.dsc", "file_hex": "62ff2e647363"}
    wanted = listing([], name_of("A", "macro", {"kind": "string", "text": "lat\ufffd", "text_hex": "6c6174e9"}))
    wanted["files"] = [{**names, "refusal": None}]
    wanted["names"][0]["places"] = [{**names, "line": 1, "column": 8, "read": True}]
    yield "names with other bytes", (in_order(got), errors, status), (in_order(wanted), b"", 0)


def checks():
    for part in (select_answers, select_several_files, select_refusals, select_notes, select_kinds_of_notes, select_notes_of_a_refused_file,
                 select_strict, select_to_a_file, names_of_files, nothing_without_an_answer, names_answers, names_refusals, names_defined,
                 names_that_are_no_text):
        if chosen("objects_" + part.__name__, "objects"):
            yield from part()
