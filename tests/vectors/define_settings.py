"""DEFINE lines and the table of settings (order 6 of document 02): which value a macro has, from which line on, in `!ifdef` too, and that
PCDs come from the table alone. Worked out by hand from documents 01 and 02 and the decisions in docs/DECISIONS.md.

A vector is a file, with `|` for the LF between its lines, a table, and its answer: the marks as digits and the count of operators, or the
refusal's number, line and offset; the offset is left out where the refusal has no place.
"""
from settings import LONGEST_MACRO, LONGEST_PCD, TABLE, numbers
from tables import NUMBER, STRING, numbered, record

# Under the table of settings.py, where A is 2, S is "two" and W is L"wide".
OVER_THE_TABLE = [
    (b"!if $(A) == 2|!endif|DEFINE A = 3|!if $(A) == 3|!endif", ("45645", 2)),
    (b"DEFINE A = 3|!if $(A) == 2|!endif", ("635", 1)),
    (b"DEFINE A = 2|!if $(A) == 2|!endif", ("645", 1)),
    (b"DEFINE A = 0|!if $(A)|!endif", ("635", 0)),
    (b"DEFINE %s = 1|!if $(%s)|!endif" % (LONGEST_MACRO, LONGEST_MACRO), ("645", 0)),
    (b"DEFINE TRUE = 1|!if $(TRUE)|!endif", ("645", 0)),
    # of another kind
    (b"DEFINE A = 'x'|!if $(A) == 'x'|!endif", ("645", 1)),
    (b"DEFINE A = 'x'|!if $(A) == 2|!endif", (10, 2, 9)),
    (b"DEFINE A = L'x'|!if $(A) == L'x'|!endif", ("645", 1)),
    (b"DEFINE S = 1|!if $(S)|!endif", ("645", 0)),
    (b"DEFINE S = 1|!if $(S) == 'two'|!endif", (10, 2, 9)),
    (b"DEFINE S = L'two'|!if $(S) == L'two'|!endif", ("645", 1)),
    (b"DEFINE S = L'two'|!if $(S) == 'two'|!endif", (10, 2, 9)),
    (b"DEFINE W = 'wide'|!if $(W) == 'wide'|!endif", ("645", 1)),
    (b"DEFINE W = 1|!if $(W)|!endif", ("645", 0)),
    (b"DEFINE S = ''|!if $(S) == ''|!endif", ("645", 1)),
    (b"DEFINE Y = 'y'|!if $(Y) == 'y'|!endif", ("645", 1)),
    # by its own value, and again
    (b"DEFINE A = $(A) + 1|!if $(A) == 3|!endif", ("645", 2)),
    (b"DEFINE A = $(A) + 1|DEFINE A = $(A) * 2|DEFINE A = $(A) - 1|!if $(A) == 5|!endif", ("66645", 4)),
    (b"DEFINE A = 3|DEFINE A = 4|!if $(A) == 4|!endif", ("6645", 1)),
    (b"DEFINE A = 3|DEFINE A = 2|!if $(A) == 2|!endif", ("6645", 1)),
    # the others are still there
    (b"DEFINE A = 3|!if $(S) == 'two' AND $(M) == ~0 AND g.Num == 7|!endif", ("645", 6)),
    (b"DEFINE B = 3|!if $(A) == 2|!endif", ("645", 1)),
    (b"DEFINE AA = 3|!if $(A) == 2|!endif", ("645", 1)),
    (b"DEFINE T = 3|!if $(TRUE)|!endif", ("635", 0)),
]

WITH_TABLE = [
    # the first, the middle and the last of 512 records, and one that is none of them
    (b"DEFINE N0000 = 9|!if $(N0000) == 9 AND $(N0001) == 1 AND $(N0511) == 511|!endif", numbered(512), ("645", 5)),
    (b"DEFINE N0256 = 9|!if $(N0255) == 255 AND $(N0256) == 9 AND $(N0257) == 257|!endif", numbered(512), ("645", 5)),
    (b"DEFINE N0511 = 9|!if $(N0510) == 510 AND $(N0511) == 9|!endif", numbered(512), ("645", 3)),
    (b"DEFINE N0512 = 9|!if $(N0512) == 9 AND $(N0511) == 511|!endif", numbered(512), ("645", 3)),  # R52
    (b"DEFINE A = 9|!ifdef N0511|!endif|!ifdef N0512|!endif", numbered(512), ("64535", 0)),
    # a malformed table is refused before all lines
    (b"DEFINE A = 1", TABLE[:-1], (1, 0)),
    (b"DEFINE", b"\0", (1, 0)),
]

# Nothing is set in the table.
FROM_NOTHING = [
    (b"DEFINE A = 1|!if $(A)|x|!endif", ("6415", 0)),
    (b"DEFINE A = 1", ("6", 0)),
    (b"DEFINE A = 1|", ("6", 0)),
    (b"x|DEFINE A = 1", ("16", 0)),
    (b"[Defines]|  DEFINE FOO = 2|", ("16", 0)),
    # from the next line on
    (b"!if $(A)|x|!endif|DEFINE A = 1|!if $(A)|x|!endif", ("3056415", 0)),
    (b"DEFINE A = $(A)|!if $(A)|!endif", ("635", 0)),
    (b"DEFINE A = $(A) + 1|DEFINE A = $(A) + 1|DEFINE A = $(A) + 1|!if $(A) == 3|!endif", ("66645", 4)),
    (b"DEFINE A = !$(A)|DEFINE A = !$(A)|DEFINE A = !$(A)|!if $(A)|!endif", ("66645", 3)),
    (b"DEFINE A = 1|DEFINE A = $(A) << 63|DEFINE A = $(A) + $(A)", (11, 3, 16)),
    (b"DEFINE A = 1|DEFINE A = $(A) - 1|DEFINE A = 1 / $(A)", (12, 3, 13)),
    (b"DEFINE A = 'x'|DEFINE A = $(A) + 1", (10, 2, 16)),
    (b"DEFINE A = $(A) == ''|", (10, 1, 16)),
    (b"DEFINE A = $(A) == 0 ? 'x' : 'y'|DEFINE A = $(A) == 'x' ? 5 : 6|!if $(A) == 5|!endif", ("6645", 5)),
    # by way of others
    (b"DEFINE A = 1|DEFINE B = $(A) + 1|DEFINE C = $(A) + $(B)|!if $(C) == 3|!endif", ("66645", 3)),
    (b"DEFINE A = 'x'|DEFINE B = $(A)|DEFINE C = $(B)|!if $(C) == 'x'|!endif", ("66645", 1)),
    (b"DEFINE A = 1|DEFINE B = 2|DEFINE C = $(A)|DEFINE A = $(B)|DEFINE B = $(C)|!if $(A) == 2 AND $(B) == 1|!endif", ("6666645", 3)),
    # settled at the DEFINE line (R55)
    (b"DEFINE A = $(B)|DEFINE B = 1|!if $(A)|x|!endif", ("66305", 0)),
    (b"DEFINE A = 1|DEFINE B = $(A)|DEFINE A = 0|!if $(B)|x|!endif", ("666415", 0)),
    (b"DEFINE A = 'x'|DEFINE B = $(A)|DEFINE A = 'yy'|!if $(B) == 'x'|!endif", ("66645", 1)),
    (b"DEFINE A = 'x'|DEFINE B = $(A)|DEFINE A = 1|!if $(B) == 'x'|!endif", ("66645", 1)),
    (b"DEFINE A = L'x'|DEFINE B = $(A)|DEFINE A = 'x'|!if $(B) == L'x'|!endif", ("66645", 1)),
    (b"DEFINE A = 1 / $(B)|DEFINE B = 1|!if $(A)|!endif", (12, 1, 13)),
    (b"DEFINE A = $(B) == 'x'|DEFINE B = 'x'", (10, 1, 16)),
    (b"DEFINE A = $(B) + 1|DEFINE B = 1|!if $(A) == 1|!endif", ("6645", 2)),
    # a DEFINE that nobody uses is refused as any other, at a place in its line (R54)
    (b"DEFINE A = 1 / 0", (12, 1, 13)),
    (b" DEFINE A = 1 / 0", (12, 1, 14)),
    (b"x|\t\tDEFINE\tA=1/0", (12, 2, 12)),
    (b"DEFINE A = @", (3, 1, 11)),
]

SETTLED = [
    (b"DEFINE B = $(A)|DEFINE A = 3|!if $(B) == 2|!endif", TABLE, ("6645", 1)),
    (b"DEFINE B = $(S)|DEFINE S = 'three'|!if $(B) == 'two'|!endif", TABLE, ("6645", 1)),
    (b"DEFINE B = $(W)|DEFINE W = 0|!if $(B) == L'wide'|!endif", TABLE, ("6645", 1)),
    (b"DEFINE B = $(Y)|DEFINE Y = ''|DEFINE C = $(B)|DEFINE B = ''|!if $(C) == '" + b"y" * 56 + b"'|!endif", TABLE, ("666645", 1)),
]

# !ifdef and !ifndef: the name is set, whatever its value.
NAMED = [
    (b"!ifdef A|!endif|DEFINE A = 1|!ifdef A|!endif", b"", ("35645", 0)),
    (b"!ifndef A|!endif|DEFINE A = 1|!ifndef A|!endif", b"", ("45635", 0)),
    (b"!ifndef A|DEFINE A = 1|!endif|!ifdef A|x|!endif", b"", ("465415", 0)),
    (b"!ifndef A|DEFINE A = 1|!endif|!ifndef A|DEFINE A = 2|!endif|!if $(A) == 1|!endif", b"", ("46530545", 1)),
    (b"!ifdef A|DEFINE A = 1|!endif|!ifdef A|x|!endif", b"", ("305305", 0)),
    (b"DEFINE A = 0|!ifdef A|!endif", b"", ("645", 0)),
    (b"DEFINE A = ''|!ifdef A|!endif", b"", ("645", 0)),
    (b"DEFINE A = L''|!ifndef A|!else|!endif", b"", ("6345", 0)),
    (b"DEFINE A = $(NOPE)|!ifdef A|!endif|!ifdef NOPE|!endif", b"", ("64535", 0)),
    (b"DEFINE A = 1|!ifdef B|!endif|!ifdef AA|!endif|!ifdef A_|!endif|!ifdef A0|!endif", b"", ("635353535", 0)),
    (b"DEFINE A_B = 1|!ifdef A|!endif|!ifdef A_|!endif|!ifdef A_B|!endif|!ifdef A_BC|!endif", b"", ("635354535", 0)),
    (b"!ifdef A|!endif|DEFINE A = 0|!ifdef A|!endif", numbers(A=1), ("45645", 0)),
    (b"DEFINE B = 0|!ifdef A|!endif|!ifdef B|!endif|!ifdef C|!endif", numbers(A=1), ("6454535", 0)),
    (b"!ifdef A|DEFINE A = 'x'|!endif|!if $(A) == 'x'|!endif", numbers(A=1), ("46545", 1)),
]

# PCDs come from the table, and no DEFINE line sets one (R56).
PCDS = [
    (b"DEFINE A = g.Num|!if $(A) == 7|!endif", TABLE, ("645", 1)),
    (b"DEFINE A = a.Str|!if $(A) == 'pcd' AND a.Str == $(A)|!endif", TABLE, ("645", 3)),
    (b"DEFINE A = g.Wide|!if $(A) == L'w'|!endif", TABLE, ("645", 1)),
    (b"DEFINE A = %s + g.Num|!if $(A) == 72|!endif" % LONGEST_PCD, TABLE, ("645", 2)),
    (b"DEFINE A = g.None", TABLE, (9, 1, 11)),
    (b"DEFINE A = g.Num + g.None", TABLE, (9, 1, 19)),
    (b"DEFINE A = 0 AND g.None", TABLE, (9, 1, 17)),
    (b"DEFINE A = 1 ? 2 : g.None", TABLE, (9, 1, 19)),
    (b"DEFINE A = g.Num", b"", (9, 1, 11)),
    (b"DEFINE g.Num = 1", TABLE, (22, 1)),
    (b"DEFINE g.None = 1|!if g.None|!endif", b"", (22, 1)),
    (b"DEFINE G.N = 1|!if G.N|!endif", b"", (22, 1)),
    (b"DEFINE A = 1|!if A.A|!endif", b"", (9, 2, 4)),
    (b"DEFINE A = 1|DEFINE B = 1|!if A.B|!endif", b"", (9, 3, 4)),
    (b"DEFINE A = 1|DEFINE B = A.B", b"", (9, 2, 11)),
    (b"DEFINE A = 1|DEFINE B = 1|!if A.B == 5|!endif", record(b"A.B", NUMBER, 5), ("6645", 1)),
    (b"DEFINE A = A.B|DEFINE A = $(A) == A.B|!if $(A)|!endif", record(b"A.B", STRING, b"x"), ("6645", 1)),
    (b"DEFINE A = 1|!ifdef A.A|!endif", b"", (22, 2)),
]

FILES = WITH_TABLE + SETTLED + NAMED + PCDS
FILES += [(file, TABLE, wanted) for file, wanted in OVER_THE_TABLE] + [(file, b"", wanted) for file, wanted in FROM_NOTHING]
VECTORS = [(file.replace(b"|", b"\n"), table, wanted) for file, table, wanted in FILES]
