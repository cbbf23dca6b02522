"""Several files in one selection: what is said of the run."""
from command import answer_beside
from tally import chosen

FILES = {
    "a.dsc": b"a\n!if 0\nb\n!endif\nc\n",
    "b.dsc": b"!if 1\nd\n!endif\n",
    "week.dsc": b"!if $(WEEK)\nx\n!endif\n",
    "debug.dsc": b"!ifdef DEBUG\ny\n!endif\n",
    "set.dsc": b"!if $(CELLS) == 8\nz\n!endif\n",
    "bad.dsc": b"e\n!endif\n",
    "old.dsc": b"!ifdef $(CELLS)\no\n!endif\n",
    "word.dsc": b"!if 'a' == a AND 'b' != a\nw\n!endif\n",
}


def select(*words, input=b""):
    """Standard output, the lines of standard error and the status of a selection from these files."""
    output, errors, status = answer_beside(FILES, ["select", *words], input=input)
    return output, errors.decode().splitlines(), status


def summary():
    """Several files have a line that counts; one file has none."""
    two = ["korzhinay: 2 files, 3 of 8 lines kept, 0 notes"]
    yield "two files", select("a.dsc", "b.dsc"), (b"a\nc\nd\n", two, 0)
    three = ["korzhinay: 3 files, 3 of 7 lines kept, 0 notes"]
    yield "a file twice", select("b.dsc", "-", "b.dsc", input=b"s\n"), (b"d\ns\nd\n", three, 0)
    for form in ("--marks", "--annotate", "--keep-lines", "--json"):
        yield "two files with %s" % form, select(form, "a.dsc", "b.dsc")[1:], (two, 0)
    yield "one file", select("a.dsc"), (b"a\nc\n", [], 0)


def summary_with_refusals():
    """Refused files are counted, and every refusal is there."""
    refusal = ["bad.dsc:2:1: refused (19): the directive has no open `!if`, or comes after its `!else`", "    !endif", "    ^",
               "    no `!if`, `!ifdef` or `!ifndef` is open here"]
    wanted = refusal + ["korzhinay: 3 files, 1 refused, no lines written, 0 notes"]
    yield "one of three refused", select("a.dsc", "bad.dsc", "b.dsc"), (b"", wanted, 1)
    wanted = refusal + refusal + ["korzhinay: 2 files, 2 refused, no lines written, 0 notes"]
    yield "both refused", select("bad.dsc", "bad.dsc"), (b"", wanted, 1)
    noted = ["week.dsc:1:5: note: $(WEEK) is not set, so it is the number 0"]
    wanted = noted + refusal + ["korzhinay: 2 files, 1 refused, no lines written, 1 note"]
    yield "one refused, one noted", select("week.dsc", "bad.dsc"), (b"", wanted, 1)


def summary_with_notes():
    """The notes of each file come in the order of files, and are counted."""
    week = "week.dsc:1:5: note: $(WEEK) is not set, so it is the number 0"
    wanted = [week, "korzhinay: 2 files, 2 of 8 lines kept, 1 note"]
    yield "one note", select("week.dsc", "a.dsc"), (b"a\nc\n", wanted, 0)
    wanted = ["debug.dsc:1:8: note: DEBUG is not set, so `!ifdef` is false", week, "korzhinay: 2 files, 0 of 6 lines kept, 2 notes"]
    yield "notes of two files", select("debug.dsc", "week.dsc"), (b"", wanted, 0)
    wanted = [week, "korzhinay: note: no read directive names these settings: CELLS (-D CELLS=8)",
              "korzhinay: 2 files, 2 of 8 lines kept, 2 notes"]
    yield "the note of the run is counted", select("-D", "CELLS=8", "week.dsc", "a.dsc"), (b"a\nc\n", wanted, 0)
    yield "quiet", select("--quiet", "debug.dsc", "week.dsc"), (b"", [], 0)


def strict():
    """A note in one file is enough to write nothing of any."""
    output, lines, status = select("--strict", "a.dsc", "week.dsc")
    yield "strict", (output, lines[-1:], status), (b"", ["korzhinay: 1 note under --strict, so nothing is written"], 1)
    output, lines, status = select("--strict", "debug.dsc", "week.dsc")
    yield "strict with two notes", (output, lines[-1:], status), (b"", ["korzhinay: 2 notes under --strict, so nothing is written"], 1)
    wanted = ["korzhinay: 2 files, 3 of 8 lines kept, 0 notes"]
    yield "strict without notes", select("--strict", "a.dsc", "b.dsc"), (b"a\nc\nd\n", wanted, 0)


def old_spellings():
    """With --warn-old each file has its own notes on what the new edition would refuse, and they are counted."""
    old = "old.dsc:1:8: note: the new edition refuses $(CELLS) after `!ifdef`; write CELLS"
    words = ["word.dsc:1:%d: note: the new edition refuses the bare word a; write \"a\"" % column for column in (12, 25)]
    for options, wanted, status in (
            ([], ["korzhinay: 2 files, 2 of 6 lines kept, 0 notes"], 0),
            (["--warn-old"], [old, *words, "korzhinay: 2 files, 2 of 6 lines kept, 3 notes"], 0),
            (["--warn-old", "--quiet"], [], 0),
            (["--strict"], ["korzhinay: 2 files, 2 of 6 lines kept, 0 notes"], 0),
            (["--warn-old", "--strict"], [old, *words, "korzhinay: 2 files, 2 of 6 lines kept, 3 notes",
                                          "korzhinay: 3 notes under --strict, so nothing is written"], 1)):
        got = select("-D", "CELLS=8", *options, "old.dsc", "word.dsc")
        yield "old spellings with %s" % options, got, (b"" if status else b"o\nw\n", wanted, status)


def settings_of_any_file():
    """A setting is used if one of the files names it."""
    unused = "korzhinay: note: no read directive names these settings: CELLS (-D CELLS=8)"
    for names, kept, wanted in ((["a.dsc", "set.dsc", "b.dsc"], b"a\nc\nz\nd\n", []), (["a.dsc", "b.dsc"], b"a\nc\nd\n", [unused])):
        output, lines, status = select("-D", "CELLS=8", *names)
        yield "settings of %s" % " ".join(names), (output, [line for line in lines if "note: " in line], status), (kept, wanted, 0)


def names_of_files():
    """The line before a file's part shows nothing that a terminal would obey."""
    names = [b"a\x1b[2J.dsc", "b\u202e.dsc".encode()]
    got = answer_beside({name: b"a\n" for name in names}, [b"select", b"--quiet", b"--annotate"] + names)
    wanted = b"==> a\\x1B[2J.dsc <==\n   1 1 | a\n==> b\\xE2\\x80\\xAE.dsc <==\n   1 1 | a\n"
    yield "names before the parts", got, (wanted, b"", 0)


def checks():
    for part in (summary, summary_with_refusals, summary_with_notes, strict, old_spellings, settings_of_any_file, names_of_files):
        if chosen("several_" + part.__name__, "several"):
            yield from part()
