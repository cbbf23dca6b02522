"""Gathers the vectors of selection: a file, a table, how many bytes of marks are lent, and the answer, which is the refusal's number
(0: none), line and offset, and the marks of the lines and the count of operators; or a Differ of two.
"""
import arguments
import bars
import define_expressions
import define_lines
import edition_files
import groups
import limits
import lines
import offsets
import placed_lines
from editions import OLD, mapped, wanted_in
from settings import TABLE

# The refusals that have a place; all others have the offset 0.
PLACED = range(3, 13)

WHOLE = (
    [(file, table, wanted) for file, wanted in lines.VECTORS for table in (b"", TABLE)]
    + groups.VECTORS
    + arguments.VECTORS
    + bars.VECTORS
    + limits.VECTORS
    + [(file, TABLE, wanted) for file, wanted in placed_lines.VECTORS]
    + edition_files.VECTORS
    + define_lines.VECTORS
)


def line_count(file):
    """How many lines a file has: one for each LF, and one more if anything follows the last."""
    return len(file.split(b"\n")) - (not file or file.endswith(b"\n"))


def answer(wanted):
    """The answer that a vector wants. A refusal that has a place needs its offset, and no other has one."""
    if isinstance(wanted[0], str):
        marks, count = wanted
        return 0, 0, 0, bytes(int(mark) for mark in marks), count
    number, line, *offset = wanted
    if (number in PLACED) != bool(offset):
        raise AssertionError("a vector with %r: the offset is missing, or there is none" % (wanted,))
    return number, line, *(offset or [0]), b"", 0


def rooms(file, table, wanted):
    """Tries a vector with just enough marks, with more, and with fewer, which is 16 unless 1, 14 or 15 comes before."""
    enough = line_count(file)
    for room in (enough, enough + 1, enough + 13):
        yield file, table, room, mapped(answer, wanted)
    for room in sorted({0, enough // 2, enough - 1} - {-1, enough}):
        yield file, table, room, answer(wanted if wanted_in(OLD, wanted)[0] in (1, 14, 15) else (16, 0))


VECTORS = [each for vector in WHOLE for each in rooms(*vector)]
VECTORS += [
    (file, table, line_count(file), mapped(answer, wanted))
    for file, table, wanted in offsets.SELECTIONS + edition_files.CONDITIONS + define_expressions.VECTORS
]
