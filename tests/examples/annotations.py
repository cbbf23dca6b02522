"""The annotations: of an object with everything in it that can be there, of what the command prints, and of what is no such object."""
import json
import os
import tempfile

from shell import EXAMPLES, run, write

PROGRAM = os.path.join(EXAMPLES, "annotations")


def note(kind, place, name, text):
    file, line, column = place
    return {"kind": kind, "file": file, "line": line, "column": column, "name": name, "text": text}


def refusal(number, meaning, line, column, hint):
    return {"number": number, "meaning": meaning, "line": line, "column": column, "offset": 0, "hint": hint}


def file(name, notes, refused, **more):
    return {"file": name, **more, "lines": 0, "kept": 0, "operators": 0, "marks": [], "notes": notes, "refusal": refused}


def selection(files, notes):
    return {"format": 1, "command": "select", "files": files, "notes": notes}


RECORDED = selection(
    [
        file("a,b:c%d.dsc", [], refusal(12, "zero divisor", 4, 7, "`/` divides 1 by 0, 100% of the time: never")),
        file("boards/\ufffd.dsc", [note("nul", ("boards/\ufffd.dsc", 1, 1), None, "NUL bytes")], refusal(14, "too long", 1, 1, None), file_hex="ff"),
        file("good.dsc", [note("unset-macro", ("good.dsc", 9, 5), "CELS", "$(CELS) is not set\r\nCELLS is set")], None),
    ],
    [note("unused-settings", (None, 0, 0), None, "no read directive names these settings: CELLS (-D CELLS=8), BOARD (buoy.settings:3)")],
)
SHOWN = [
    "::error file=a%2Cb%3Ac%25d.dsc,line=4,col=7::refused (12): zero divisor%0A`/` divides 1 by 0, 100%25 of the time: never",
    "::error file=boards/\ufffd.dsc,line=1,col=1::refused (14): too long",
    "::warning file=boards/\ufffd.dsc,line=1,col=1::NUL bytes",
    "::warning file=good.dsc,line=9,col=5::$(CELS) is not set%0D%0ACELLS is set",
    "::warning::no read directive names these settings: CELLS (-D CELLS=8), BOARD (buoy.settings:3)",
]
# What is not printed by `select --json`, format 1.
OTHERS = [b"", b"\n", b"[]", b"{}", b"7", b"\xff", b'{"format": 2, "command": "select"}', b'{"format": 1, "command": "eval"}']


def annotated(given, folder):
    """The lines of the annotations, and the status."""
    shown, _, status = run([PROGRAM], folder, folder, given)
    return shown.splitlines(), status


def recorded(folder):
    yield "all sorts", annotated(json.dumps(RECORDED).encode(), folder), (SHOWN, 1)
    good = selection(RECORDED["files"][2:], [])
    yield "a note alone", annotated(json.dumps(good).encode(), folder), (SHOWN[3:4], 0)
    yield "nothing", annotated(json.dumps(selection([], [])).encode(), folder), ([], 0)
    for given in OTHERS:
        shown, said, status = run([PROGRAM], folder, folder, given)
        yield "no selection: %r" % given, (shown, said.count("\n"), status), ("", 1, 2)


def real(folder):
    """What the command prints itself."""
    write(folder, "a,b.dsc", "x\n!if 1 / 0\n!endif\n")
    write(folder, "cells.dsc", "!if $(CELS) > 4\n!endif\n")
    printed, said, status = run(["korzhinay", "select", "--json", "a,b.dsc", "cells.dsc"], folder, folder)
    yield "the status of the command", status, 1
    shown, status = annotated(printed.encode(), folder)
    wanted = ["::error file=a%2Cb.dsc,line=2,col=7::refused (12): zero divisor%0A`/` divides 1 by 0"]
    yield "a refusal", (shown[:1], status), (wanted, 1)
    yield "a note", shown[1:], ["::warning file=cells.dsc,line=1,col=5::$(CELS) is not set, so it is the number 0"]
    printed, said, status = run(["korzhinay", "select", "--json", "-D", "CELS=8", "cells.dsc"], folder, folder)
    yield "nothing to say", (annotated(printed.encode(), folder), said, status), (([], 0), "", 0)
    write(folder, "define.dsc", "DEFINE CELLS = 8\n")
    write(folder, "shape.dsc", "x\n DEFINE cells = 8\n")
    printed, said, status = run(["korzhinay", "select", "--json", "-D", "CELLS=4", "define.dsc", "shape.dsc"], folder, folder)
    shown, status = annotated(printed.encode(), folder)
    wanted = ["::warning file=define.dsc,line=1,col=8::`DEFINE` overrides the setting of CELLS (-D CELLS=4)",
              "::error file=shape.dsc,line=2,col=2::refused (22): the text after the line's word is not what it takes%0Awrite `DEFINE NAME"]
    yield "DEFINE lines", ([line.split(": here")[0].split(" = expression")[0] for line in shown], status), (wanted, 1)
    printed, said, status = run(["korzhinay", "select", "--json", "absent.dsc"], folder, folder)
    yield "a file that is not there", (annotated(printed.encode(), folder), status), (([], 2), 2)


def checks():
    for part in recorded, real:
        with tempfile.TemporaryDirectory() as folder:
            yield from part(folder)
