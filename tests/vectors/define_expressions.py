"""Every expression of the vectors in a DEFINE line (order 6 of document 02): kept, it is refused as it is by itself, 8 included, at its
offset from the line's start, or its macro then has the value that it has by itself; not kept, it is not looked at.
"""
import evaluation
from editions import Differ
from offsets import fits
from settings import RECORDS, TABLE
from tables import NUMBER, record

MALFORMED_TABLE, MAX_STRING = 1, 56
LONG = 28

# What comes before the expression, in lines before, with their marks, and in its own (R54); and what comes after it, with its marks.
KEPT = [
    (b"", "", b"DEFINE V = ", b"\n", ""),
    (b"x\n", "1", b" \tDEFINE\tV=", b"\r\n", ""),
    (b"!if 1\n", "4", b"\tDEFINE V\t=\t", b"\n!endif\n", "5"),
]
# The same where it is not kept, and the marks.
DROPPED = [(b"!if 0\n", b"DEFINE V = ", b"\n!endif\n", "305"), (b"!if 1\n!elseif @\n", b" DEFINE V=", b"\r\n!endif", "4205")]


def string_of(text, table, answer):
    """The string that an answer is."""
    _, _, _, memory, start, length = answer
    return (table if memory else text)[start:start + length]


def tested(text, table, answer):
    """A condition that is true exactly if V has the answer's value, and a table for it, in which Q is a string of the answer's."""
    kind, number, *_ = answer
    if kind == NUMBER:
        return b"!if $(V) == %d\n!endif" % number, table
    assert table is TABLE, "only there is Q still free"
    settings = sorted(RECORDS + [(b"Q", kind, string_of(text, table, answer))])
    return b"!if $(V) == $(Q)\n!endif", b"".join(record(*each) for each in settings)


def accepted(text, table, answer):
    """The answer to a file in which the macro is set and tested, with the file and its table."""
    kind, _, count, *_, length = answer
    for before, front_marks, front, after, back_marks in KEPT:
        if fits(front, text):
            test, settings = tested(text, table, answer)
            wanted = (front_marks + "6" + back_marks + "45", count + 1)
            if kind != NUMBER and length > MAX_STRING:
                wanted = LONG, len(front_marks) + 1
            yield before + front + text + after + test, settings, wanted


def refused(text, table, refusal):
    number, offset = refusal
    for before, front_marks, front, after, _ in KEPT:
        if fits(front, text):
            yield before + front + text + after, table, (number, len(front_marks) + 1, len(front) + offset)


def kept(text, table, wanted):
    """The vectors of an expression by its answer in the old edition and, if it has another one there, in the new edition."""
    number, offset, answer = wanted.old if isinstance(wanted, Differ) else wanted
    made = list(refused(text, table, (number, offset)) if number else accepted(text, table, answer))
    if isinstance(wanted, Differ):
        others = refused(text, table, wanted.new[:2])
        made = [(file, settings, Differ(old, new)) for (file, settings, old), (_, _, new) in zip(made, others)]
    return made


def dropped(text, table):
    return [
        (before + front + text + after, table, (marks, 0)) for before, front, after, marks in DROPPED if fits(front, text)
    ]


EXPRESSIONS = [each for each in evaluation.VECTORS if each[1] and (isinstance(each[2], Differ) or each[2][0] != MALFORMED_TABLE)]
VECTORS = [vector for each in EXPRESSIONS for vector in kept(*each)]
VECTORS += [vector for text, table, _ in EXPRESSIONS for vector in dropped(text, table)]
