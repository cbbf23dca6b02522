"""The table of settings: what `table -o` writes has each part where its row tells, and a record in which any one byte is changed is
well formed exactly if it still is what the rows tell."""
import re

import library
from manual import matched, rows
from product import ask

# The rows, as `written` and `sound` below understand them.
CONTENTS = [
    "the name, 1 to 64 bytes, then zeros: a macro's without `$(` and `)`, or a PCD's",
    "the kind: 0 number, 1 string, 2 wide string",
    "the content's length: 8 for a number, 0 to 56 for a string of either kind",
    "zeros",
    "the content, then zeros: a number with its lowest byte first, a string's bytes without quotes",
]
# Settings, and the name, kind and content of their records.
SETTINGS = [
    ("A=0x0102030405060708", b"A", 0, bytes(range(8, 0, -1))),
    ('NAME_2="SPAR"', b"NAME_2", 1, b"SPAR"),
    ("g1.Pcd='%s'" % ("s" * 56), b"g1.Pcd", 1, b"s" * 56),
    ('%s=L"Seal"' % ("A" * 64), b"A" * 64, 2, b"Seal"),
    ('A=L""', b"A", 2, b""),
]
MACRO, WORD = rb"[A-Z][A-Z0-9_]*", rb"[A-Za-z_][A-Za-z0-9_]*"
NAME = re.compile(rb"(%s|%s\.%s)\0*" % (MACRO, WORD, WORD))


def ranges(cells):
    """The first byte of each row's range, and the first one after it."""
    for first, last in (matched(r"(\d+)(?: to (\d+))?", cell) for cell in cells):
        yield int(first), int(last or first) + 1


def written(parts, name, kind, content):
    contents = [name, bytes([kind]), bytes([len(content)]), b"", content]
    return b"".join(content.ljust(end - start, b"\0") for (start, end), content in zip(parts, contents))


def sound(name, kind, length, zeros, content):
    size, = length
    fits = size == 8 if kind == b"\0" else kind in (b"\1", b"\2") and size <= 56
    return bool(NAME.fullmatch(name)) and fits and not any(zeros) and not any(content[size:])


def damaged(record):
    """Every record that differs in one byte."""
    for at in range(len(record)):
        for byte in range(256):
            if byte != record[at]:
                yield at, record[:at] + bytes([byte]) + record[at + 1:]


def misjudged(parts, record):
    """The damaged records, by place and byte, on which the library's verdict is not the rows'."""
    for at, each in damaged(record):
        refused = not sound(*(each[start:end] for start, end in parts))
        if library.table(each) != refused:
            yield at, each[at]


def checks():
    found = rows("The table of settings", "bytes", "content")
    parts = list(ranges(row[0] for row in found))
    yield "contents", [row[1] for row in found], CONTENTS
    yield "ranges without a gap", [start for start, _ in parts] + [128], [0] + [end for _, end in parts]
    for setting, *record in SETTINGS:
        yield "the record of %s" % setting, ask("table", "-D", setting, "-o", "-"), written(parts, *record)
    for setting, *record in SETTINGS[:3]:
        yield "damages of %s that are misjudged" % setting, list(misjudged(parts, written(parts, *record))), []
    record = written(parts, *SETTINGS[0][1:])
    for _, end in parts:
        damage = record[: end - 1] + b"\xff" + record[end:]
        yield "a damage at byte %d" % (end - 1), ask("table", "-", given=damage), 1
    one, other = (written(parts, name, 0, bytes(8)) for name in (b"A", b"B"))
    tables = [b"", one, one + other, other + one, one + one, one + b"\0", b"\0" + one, one[:-1]]
    yield "tables of several records, or of parts of one", [library.table(table) for table in tables], [0, 0, 0, 1, 1, 1, 1, 1]
