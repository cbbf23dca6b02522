"""DEFINE lines in the two editions (orders 5 and 6 of document 02): bare words in their expressions, and `$(NAME)` after !ifdef and !ifndef
of a macro that such a line sets. Worked out by hand from document 02 and the decisions in docs/DECISIONS.md.

A vector is a file, with `|` for the LF between its lines, a table, and its answer, in which the old edition comes first where they differ:
the marks as digits and the count of operators, or the refusal's number, line and offset; the offset is left out where the refusal has no
place.
"""
from editions import Differ
from settings import TABLE
from tables import STRING, record

DEBUG = record(b"TARGET", STRING, b"DEBUG")

FILES = [
    # after ==, !=, EQ and NE
    (b'DEFINE A = "a" == a|!if $(A)|!endif', b"", Differ(("645", 1), (3, 1, 18))),
    (b'DEFINE A = "a" != a|!if $(A)|!endif', b"", Differ(("635", 1), (3, 1, 18))),
    (b"DEFINE A = 'a' EQ a|!if $(A)|!endif", b"", Differ(("645", 1), (3, 1, 18))),
    (b"DEFINE A = 'a' NE b|!if $(A)|!endif", b"", Differ(("645", 1), (3, 1, 18))),
    (b"DEFINE A=''!=a", b"", Differ(("6", 1), (3, 1, 13))),
    (b"DEFINE D = $(TARGET) == DEBUG|!if $(D)|!endif", DEBUG, Differ(("645", 1), (3, 1, 24))),
    (b"DEFINE D = $(TARGET) == RELEASE|!if $(D)|!endif", DEBUG, Differ(("635", 1), (3, 1, 24))),
    (b"DEFINE D = $(TARGET) == DEBUG", b"", Differ((10, 1, 21), (3, 1, 24))),
    (b"DEFINE TARGET = 'DEBUG'|!if $(TARGET) == DEBUG|!endif", b"", Differ(("645", 1), (3, 2, 17))),
    (b"DEFINE TARGET = 'DEBUG'|DEFINE D = $(TARGET) == DEBUG ? 'x' : 'y'|!if $(D) == x|!endif", b"", Differ(("6645", 3), (3, 2, 24))),
    (b"DEFINE A = 1 == a", b"", Differ((10, 1, 13), (3, 1, 16))),
    (b"DEFINE A = '' == '" + b"y" * 57 + b"' ? '' : '" + b"y" * 57 + b"'", b"", (28, 1)),
    # the `=` of the line is no operator, and no other place is for a bare word
    (b"DEFINE A = a", b"", (3, 1, 11)),
    (b"DEFINE A =a", b"", (3, 1, 10)),
    (b"DEFINE A = DEBUG", DEBUG, (3, 1, 11)),
    (b"DEFINE A == a", b"", (3, 1, 10)),
    (b"DEFINE A = a == 'a'", b"", (3, 1, 11)),
    (b"DEFINE A = 1 ? a : b", b"", (3, 1, 15)),
    (b"DEFINE A = 'a' == (a)", b"", (3, 1, 19)),
    (b"DEFINE A = $(TARGET) == $(TARGET) ? DEBUG : RELEASE", DEBUG, (3, 1, 36)),
    # in quotes it is the same in both
    (b"DEFINE D = $(TARGET) == 'DEBUG'|!if $(D)|!endif", DEBUG, ("645", 1)),
    # a bare word is no string that is set, however long it is
    (b"DEFINE A = '' != " + b"y" * 57, b"", Differ(("6", 1), (3, 1, 17))),
    (b"DEFINE A = '' != " + b"y" * 1007, b"", Differ(("6", 1), (3, 1, 17))),
    # the shape is the same in both
    (b"DEFINE $(A) = 1", b"", (22, 1)),  # R53
    (b"DEFINE $(A) = 1", TABLE, (22, 1)),
    (b"DEFINE a = 'a' == a", b"", (22, 1)),
    # `$(NAME)` after !ifdef and !ifndef
    (b"!ifdef $(A)|!endif|DEFINE A = 1|!ifdef $(A)|!endif", b"", Differ(("35645", 0), (22, 1))),
    (b"!ifndef $(A)|DEFINE A = 1|!endif|!ifndef $(A)|!endif", b"", Differ(("46535", 0), (22, 1))),
    (b"DEFINE A = 1|!ifdef $(A)|x|!endif", b"", Differ(("6415", 0), (22, 2))),
    (b"DEFINE A = 0|!ifndef $(A)|x|!else|y|!endif", b"", Differ(("630415", 0), (22, 2))),
    (b"DEFINE A = 1|!ifdef A|x|!endif", b"", ("6415", 0)),
    (b"DEFINE A = 1|!ifdef $(B)|!endif", b"", Differ(("635", 0), (22, 2))),
    (b"DEFINE A = 'B'|!ifdef $(A)|!endif", b"", Differ(("645", 0), (22, 2))),
    # not kept, so not looked at in either
    (b"!if 0|DEFINE A = 'a' == a|!endif", b"", ("305", 0)),
    (b"!if 1|!else|DEFINE A = a|!endif", b"", ("4305", 0)),
    # the first line that is refused decides, so another one may in the other edition
    (b"DEFINE A = 'a' == a|DEFINE B = 1 / 0", b"", Differ((12, 2, 13), (3, 1, 18))),
    (b"DEFINE A = 'a' == a|DEFINE", b"", Differ((22, 2), (3, 1, 18))),
    (b"DEFINE|DEFINE A = 'a' == a", b"", (22, 1)),
    (b"DEFINE B = '" + b"y" * 57 + b"'|DEFINE A = 'a' == a", b"", (28, 1)),
    (b"!ifdef $(A)|!endif|DEFINE A = @", b"", Differ((3, 3, 11), (22, 1))),
    (b"DEFINE A = '' == a ? '' : '" + b"y" * 57 + b"'", b"", Differ((28, 1), (3, 1, 17))),
    (b"|".join([b"DEFINE N%02d = 1" % each for each in range(64)] + [b"DEFINE A = 'a' == a"]), b"", Differ((27, 65), (3, 65, 18))),
]
# In a DEFINE line bars need their parentheses, in directives not: one line each, with no `|` for an LF.
BARS = [
    (b"DEFINE A = 'a' == a || 1", Differ((8, 1, 20), (3, 1, 18))),
    (b"DEFINE A = ('a' == a || 1)", Differ(("6", 2), (3, 1, 19))),
]
VECTORS = [(file.replace(b"|", b"\n"), table, wanted) for file, table, wanted in FILES]
VECTORS += [(line, b"", wanted) for line, wanted in BARS]
