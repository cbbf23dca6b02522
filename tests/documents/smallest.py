"""The smallest inputs in the table of refusals: each is refused with the number and the offset of its row, and what is smaller is not."""
import itertools
import re
import string

import library
from manual import MANUAL, codes, matched, meaning, number, rows
from product import ask
from refusals import HEADING

NOTHING = "no byte at all"
# The refusals of expressions and of files; all others have a way of their own.
EXPRESSIONS, FILES = range(2, 13), {13, 14, 15, 17, 18, 19, 20, 21, 22, 27, 28}
# Bytes of a field, and marks for any file of the table.
ROOM, ENOUGH = 8, 5000
# How a cell tells an input: in words, as code, or by counting. The input is made with one byte, line, token or group fewer on demand.
FORMS = {
    NOTHING: lambda fewer: "",
    r"`([^`]*)`": lambda fewer, code: code[: len(code) - fewer],
    r"([\d,]+) blanks": lambda fewer, count: " " * (number(count) - fewer),
    r"([\d,]+) bytes": lambda fewer, count: "\0" * (number(count) - fewer),
    r"([\d,]+) times LF": lambda fewer, count: "\n" * (number(count) - fewer),
    r"([\d,]+) times `(.)`": lambda fewer, count, token: token * (number(count) - fewer),
    r"`([^`]*)` and ([\d,]+) times `([^`]*)`": lambda fewer, first, count, later: "\n".join([first] + [later] * (number(count) - fewer)),
    r"([\d,]+) lines `([^`]*)`, each with another name": lambda fewer, count, line: "\n".join(renamed(line)[: number(count) - fewer]),
    r"`([^`]*)` and a string of ([\d,]+) bytes": lambda fewer, front, count: "%s'%s'" % (front, "x" * (number(count) - fewer)),
}


def renamed(line):
    """A line with each of the shortest names instead of its A."""
    names = [first + second for second in ("", *string.ascii_uppercase) for first in string.ascii_uppercase]
    return [re.sub(r"\bA\b", name, line) for name in names]


def made(cell, fewer=0):
    """The input that a cell tells, or one that is a step smaller."""
    for form, make in FORMS.items():
        match = re.fullmatch(form, cell)
        if match:
            return make(fewer, *match.groups())
    raise SystemExit("%s: the test cannot make the input '%s'" % (MANUAL, cell))


def of_table(cell, fewer):
    matched("a table of one byte", cell)
    return library.evaluate(b"", b"x"[fewer:])


def of_marks(cell, fewer):
    """A step smaller is no LF."""
    matched("one LF and no mark", cell)
    refusal, _, offset, *_ = library.select(b"\n"[fewer:], b"", 0)
    return refusal, offset


def of_file(cell, fewer):
    refusal, _, offset, *_ = library.select(made(cell, fewer).encode(), b"", ENOUGH)
    return refusal, offset


def of_code(cell, fewer):
    """A step smaller is the code before."""
    expression, code = matched(r"`(.*)` and the code (\d+)", cell)
    return library.field(expression.encode(), b"", int(code) - fewer, ROOM)


def datum(name):
    return meaning({codes(row[1])[0]: int(row[0]) for row in rows("Data fields", "code", "type", "takes", "bytes")}, name)


def of_datum(cell, fewer):
    expression, name = matched(r"`(.*)` for `(.*)`", cell)
    return library.field(expression[fewer:].encode(), b"", datum(name), ROOM)


def of_buffer(cell, fewer):
    """A step smaller is a buffer that is enough."""
    expression, name = matched(r"`(.*)` for `(.*)` and no byte", cell)
    return library.field(expression.encode(), b"", datum(name), fewer)


CALLS = {1: of_table, 16: of_marks, 23: of_code, 24: of_datum, 25: of_datum, 26: of_buffer, **dict.fromkeys(FILES, of_file)}


def by_library(refusal, cell, fewer=0):
    """The number and the offset that the library answers to a cell's input, or to one that is a step smaller."""
    if refusal in EXPRESSIONS:
        return library.evaluate(made(cell, fewer).encode(), b"")[:2]
    return CALLS[refusal](cell, fewer)[:2]


def by_command(refusal, cell, fewer=0):
    """The number that the command answers; where it cannot ask, the library's."""
    if refusal == 1:
        return ask("table", "-", given=b"x"[fewer:])
    if refusal in EXPRESSIONS:
        return ask("eval", "--", made(cell, fewer))
    if refusal in FILES:
        return ask("select", "-", given=made(cell, fewer).encode())
    if refusal in (24, 25):
        expression, name = matched(r"`(.*)` for `(.*)`", cell)
        return ask("field", "--datum", name, "--", expression[fewer:])
    return by_library(refusal, cell, fewer)[0]


def shortest(refusal_of, alphabet, most):
    """The length of the shortest input of these bytes that is refused with each number."""
    found = {}
    for length in range(most + 1):
        for text in itertools.product(alphabet, repeat=length):
            found.setdefault(refusal_of(bytes(text)), length)
    return found


def checks():
    # Bytes of which the short inputs of the table are made, and others that might do as well.
    expressions = shortest(lambda text: library.evaluate(text, b"")[0], b"@!\"-/01|a.()$A ", 3)
    files = shortest(lambda text: library.select(text, b"", 1)[0], b"! ifels02", 5)
    for refusal, cell, offset in [(int(row[0]), row[3], int(row[4])) for row in rows("Refusals", *HEADING)]:
        yield "%d by %s" % (refusal, cell), by_command(refusal, cell), refusal
        yield "%d by %s, with its offset" % (refusal, cell), by_library(refusal, cell), (refusal, offset)
        if cell != NOTHING:
            smaller = by_command(refusal, cell, 1), by_library(refusal, cell, 1)[0]
            yield "%d by less than %s" % (refusal, cell), [each == refusal for each in smaller], [False, False]
        if refusal in EXPRESSIONS or refusal in FILES:
            length, found = len(made(cell)), expressions if refusal in EXPRESSIONS else files
            yield "%d by fewer bytes than %s" % (refusal, cell), found.get(refusal, length), length
