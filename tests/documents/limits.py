"""The limits in the table of 'What is read': what is within them is not refused for its size, and one more is."""
import library
from manual import matched, meaning, number, rows
from records import ranges, written

RECORD = list(ranges(["0 to 63", "64", "65", "66 to 71", "72 to 127"]))


def expression(text):
    return library.evaluate(text, b"")[0]


def file(text):
    return library.select(text, b"", 5000)[0]


def lines(size):
    return (b"x" * 63 + b"\n") * (size // 64) + b"x" * (size % 64)


def records(count):
    return b"".join(written(RECORD, b"A%04d" % each, 0, bytes(8)) for each in range(count))


# Of each input: its limits as they are written, and for each number the call that meets it, an input of that size, the answer at the limit
# and the one past it. Blanks, plus signs and open parentheses are no expression (7).
LIMITS = {
    "an expression": (
        r"([\d,]+) bytes, ([\d,]+) tokens, ([\d,]+) parentheses deep",
        [(expression, lambda n: b" " * n, 7, 2), (expression, lambda n: b"+" * n, 7, 5), (expression, lambda n: b"(" * n, 7, 6)],
    ),
    "a file": (
        r"([\d,]+) bytes, ([\d,]+) lines of ([\d,]+) bytes, ([\d,]+) groups deep, ([\d,]+) macros set",
        [
            (file, lines, 0, 14),
            (file, lambda n: b"\n" * n, 0, 15),
            (file, lambda n: b"x" * n, 0, 17),
            (file, lambda n: b"!if 0\n" * n + b"!endif\n" * n, 0, 20),
            (file, lambda n: b"".join(b"DEFINE A%d = 1\n" % each for each in range(n)), 0, 27),
        ],
    ),
    "a table": (r"([\d,]+) records of 128 bytes", [(library.table, records, 0, 1)]),
}


def checks():
    found = rows("What is read", "input", "what it is", "limits", "read by")
    yield "inputs", len(found), len(LIMITS)
    for name, _, cell, _ in found:
        form, asked = meaning(LIMITS, name)
        for text, (ask, made, within, past) in zip(matched(form, cell), asked):
            limit = number(text)
            yield "%s, %s" % (name, text), [ask(made(limit)), ask(made(limit + 1))], [within, past]
