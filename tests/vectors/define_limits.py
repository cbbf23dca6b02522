"""DEFINE lines at their limits (order 6 of document 02): 64 names, each of 64 bytes, strings of 56 bytes; 22, 28 and 27; and which of two
refusals of one line is given. Worked out by hand from documents 01 and 02 and the decisions in docs/DECISIONS.md.

A vector is a file, a table and the answer: the marks as digits and the count of operators, or the refusal's number, line and offset; the
offset is left out where the refusal has no place.
"""
from settings import LONGEST_MACRO, TABLE, numbers
from tables import WIDE, numbered, record

MOST = 64


def joined(*lines):
    return b"\n".join(lines)


def sets(count, text=b"1", form=b"N%02d"):
    """Lines that set this many macros, N00, N01 and so on, to one text."""
    return [b"DEFINE %s = %s" % (form % each, text) for each in range(count)]


FULL = sets(MOST)
OVER_TABLE = sets(MOST, form=b"N%04d")
SIXES = "6" * MOST
LONG = b"'" + b"y" * 57 + b"'"

# Names: a 65th one is 27.
NAMES = [
    (joined(*FULL), b"", (SIXES, 0)),
    (joined(*FULL, b""), b"", (SIXES, 0)),
    (joined(*FULL, b"DEFINE N64 = 1"), b"", (27, 65)),
    (joined(*FULL, b"DEFINE A = 1"), b"", (27, 65)),
    (joined(*FULL, b"DEFINE Z = 1"), b"", (27, 65)),
    (joined(*FULL, b"x", b"", b"\t DEFINE N64=1 # c", b"x"), b"", (27, 67)),
    (joined(*sets(63), b"DEFINE A = 1"), b"", (SIXES, 0)),
    (joined(*sets(63), b"DEFINE A = 1", b"DEFINE B = 1"), b"", (27, 65)),
    # a macro that was set before is no new one (R52)
    (joined(*FULL, b"DEFINE N00 = 2", b"!if $(N00) == 2", b"!endif"), b"", (SIXES + "645", 1)),
    (joined(*FULL, b"DEFINE N31 = 2", b"!if $(N31) == 2 AND $(N30) == 1 AND $(N32) == 1", b"!endif"), b"", (SIXES + "645", 5)),
    (joined(*FULL, b"DEFINE N63 = 2", b"!if $(N63) == 2", b"!endif"), b"", (SIXES + "645", 1)),
    (joined(*FULL, *FULL, *FULL), b"", (SIXES * 3, 0)),
    (joined(*FULL, *FULL, b"DEFINE N64 = 1"), b"", (27, 129)),
    (joined(*FULL, b"DEFINE N00 = 'x'", b"DEFINE N64 = 1"), b"", (27, 66)),
    (joined(*[b"DEFINE A = %d" % each for each in range(100)], b"!if $(A) == 99", b"!endif"), b"", ("6" * 100 + "45", 1)),
    (joined(*[b"DEFINE A = 1"] * 2, *sets(63)), b"", ("6" * 65, 0)),
    (joined(*[b"DEFINE A = 1"] * 2, *FULL), b"", (27, 66)),
    # names that differ by little
    (joined(*FULL, b"DEFINE N6 = 1"), b"", (27, 65)),
    (joined(*FULL, b"DEFINE N = 1"), b"", (27, 65)),
    (joined(*FULL, b"DEFINE N000 = 1"), b"", (27, 65)),
    (joined(*FULL, b"DEFINE N00_ = 1"), b"", (27, 65)),
    # the table's macros do not count (R52)
    (joined(*FULL, b"DEFINE A = 1"), numbers(A=1), (27, 65)),
    (joined(*FULL, b"DEFINE N64 = 1"), numbers(N64=1), (27, 65)),
    (joined(*FULL), TABLE, (SIXES, 0)),
    (joined(*FULL), numbered(512), (SIXES, 0)),
    (joined(*OVER_TABLE, b"!if $(N0000) == 1 AND $(N0063) == 1 AND $(N0064) == 64", b"!endif"), numbered(512), (SIXES + "45", 5)),
    (joined(*OVER_TABLE, b"DEFINE N0064 = 1"), numbered(512), (27, 65)),
    (joined(*OVER_TABLE, b"DEFINE N0063 = 2"), numbered(512), (SIXES + "6", 0)),
    # nor do those of lines that are not kept
    (joined(b"!if 0", *FULL, b"!endif", b"DEFINE A = 1"), b"", ("3" + "0" * 64 + "56", 0)),
    (joined(*FULL, b"!if 0", b"DEFINE N64 = 1", b"!endif"), b"", (SIXES + "305", 0)),
    (joined(*FULL, b"!if 1", b"!elseif 1", b"DEFINE N64 = 1", b"!endif"), b"", (SIXES + "4205", 0)),
    (joined(*sets(63), b"!if 0", b"DEFINE N63 = 1", b"!endif", b"DEFINE A = 1"), b"", ("6" * 63 + "3056", 0)),
    (joined(*sets(63), b"!if 1", b"DEFINE N63 = 1", b"!endif", b"DEFINE A = 1"), b"", (27, 67)),
    # a macro that is only used is not set
    (joined(*[b"!if $(M%02d)" % each + b"\n!endif" for each in range(80)], *FULL), b"", ("35" * 80 + SIXES, 0)),
    (joined(*FULL, b"!if $(N64)", b"!endif", b"!ifdef N64", b"!endif"), b"", (SIXES + "3535", 0)),
]

# Strings: 57 bytes are 28, of either kind (R51), and by their value, not by their text.
STRINGS = [
    (b"DEFINE B = '" + b"y" * 56 + b"'\n!if $(B) == $(Y)\n!endif", TABLE, ("645", 1)),
    (b"DEFINE B = '" + b"y" * 57 + b"'", b"", (28, 1)),
    (b'DEFINE B = "' + b"y" * 57 + b'"', b"", (28, 1)),
    (b"DEFINE B = '" + b"\0" * 57 + b"'", b"", (28, 1)),
    (b"DEFINE B = '" + b"y" * 255 + b"'", b"", (28, 1)),
    (b"DEFINE B = '" + b"y" * 256 + b"'", b"", (28, 1)),
    (b"DEFINE B = '" + b"y" * 312 + b"'", b"", (28, 1)),
    (b"DEFINE B='" + b"y" * 1013 + b"'", b"", (28, 1)),
    (b"x\n\t DEFINE B = '" + b"y" * 57 + b"' # c\r\nx", b"", (28, 2)),
    (b"!if 1\nDEFINE B = '" + b"y" * 57 + b"'\n!endif", b"", (28, 2)),
    (b"!if 0\nDEFINE B = '" + b"y" * 57 + b"'\n!endif", b"", ("305", 0)),
    # a wide string is measured by its own bytes
    (b"DEFINE B = L'" + b"y" * 28 + b"'", b"", ("6", 0)),
    (b"DEFINE B = L'" + b"y" * 29 + b"'", b"", ("6", 0)),
    (b"DEFINE B = L'" + b"y" * 56 + b"'\n!if $(B) == $(B2)\n!endif", record(b"B2", WIDE, b"y" * 56), ("645", 1)),
    (b"DEFINE B = L'" + b"y" * 57 + b"'", b"", (28, 1)),
    (b'DEFINE B = L"' + b"y" * 57 + b'"', b"", (28, 1)),
    (b"DEFINE B=L'" + b"y" * 1012 + b"'", b"", (28, 1)),
    # of the table, and of other DEFINE lines
    (b"DEFINE B = $(Y)\nDEFINE C = $(B)\n!if $(C) == $(Y)\n!endif", TABLE, ("6645", 1)),
    (b"DEFINE Y = '" + b"z" * 56 + b"'\nDEFINE B = $(Y)\n!if $(B) == '" + b"z" * 56 + b"'\n!endif", TABLE, ("6645", 1)),
    (b"DEFINE Y = $(Y)\n!if $(Y) == '" + b"y" * 56 + b"'\n!endif", TABLE, ("645", 1)),
    # the arm that is chosen
    (b"DEFINE B = 1 ? 'y' : " + LONG, b"", ("6", 1)),
    (b"DEFINE B = 0 ? 'y' : " + LONG, b"", (28, 1)),
    (b"DEFINE B = 1 ? " + LONG + b" : 'y'", b"", (28, 1)),
    (b"DEFINE B = 0 ? " + LONG + b" : 'y'\n!if $(B) == 'y'\n!endif", b"", ("645", 2)),
    (b"DEFINE B = 0 ? " + LONG + b" : $(Y)", TABLE, ("6", 1)),
    (b"DEFINE B = 1 ? L" + LONG + b" : $(F)", TABLE, (28, 1)),
    (b"DEFINE B = 0 ? L" + LONG + b" : $(F)", TABLE, ("6", 1)),
    # a number, whatever it is made of
    (b"DEFINE B = " + LONG + b" == " + LONG + b"\n!if $(B)\n!endif", b"", ("645", 1)),
    (b"DEFINE B = 0 AND " + LONG + b" == ''", b"", ("6", 1)),
    (b"DEFINE B = L" + LONG + b" < L''", b"", ("6", 1)),
    # the text may be long
    (b"DEFINE B = (((((((((((((((('" + b"y" * 56 + b"'))))))))))))))))", b"", ("6", 0)),
    (b"DEFINE B = '" + b"y" * 56 + b"' # " + b"y" * 100, b"", ("6", 0)),
    # nothing is set by a refused line, and none is needed
    (b"!if 0\n!else\nDEFINE B = " + LONG + b"\n!endif\n!ifdef B\n!endif", b"", (28, 3)),
]

# The name's length: 65 bytes are 22, in this line only.
N64 = b"N" * 64
LENGTHS = [
    (b"DEFINE %s = 1\n!if $(%s)\n!endif" % (N64, N64), b"", ("645", 0)),
    (b"DEFINE %s = 1\n!ifdef %s\n!endif" % (N64, N64), b"", ("645", 0)),
    (b"DEFINE %s = 1\n!if $(%sN)\n!endif" % (N64, N64), b"", ("635", 0)),
    (b"DEFINE %s = 1\n!ifdef %sN\n!endif" % (N64, N64), b"", ("635", 0)),
    (b"DEFINE %s = 1\n!if $(%s)\n!endif" % (N64, N64[1:]), b"", ("635", 0)),
    (b"DEFINE %s = 1\n!ifdef %s\n!endif" % (N64[1:], N64), b"", ("635", 0)),
    (b"DEFINE %s = 1\nDEFINE %s = 0\n!if $(%s)\n!endif" % (N64, N64[1:], N64), b"", ("6645", 0)),
    (b"DEFINE %sA = 1\nDEFINE %sB = 0\n!if $(%sA)\n!endif" % (N64[1:], N64[1:], N64[1:]), b"", ("6645", 0)),
    (b"DEFINE A%s = 1\nDEFINE B%s = 0\n!if $(A%s)\n!endif" % (N64[1:], N64[1:], N64[1:]), b"", ("6645", 0)),
    (b"DEFINE %sN = 1" % N64, b"", (22, 1)),
    (b"DEFINE A = $(%sN) + 1\n!if $(A) == 1\n!endif" % N64, b"", ("645", 2)),
    (b"DEFINE A = $(%s)\n!if $(A) == 64\n!endif" % LONGEST_MACRO, TABLE, ("645", 1)),
]

# Which of two: 22, the expression's own, 28, 27.
ORDER = [
    # 22 first
    (joined(*FULL, b"DEFINE a = 1"), b"", (22, 65)),
    (joined(*FULL, b"DEFINE N64"), b"", (22, 65)),
    (joined(*FULL, b"DEFINE " + N64 + b"N = 1"), b"", (22, 65)),
    (joined(*FULL, b"DEFINE " + N64 + b"N = " + LONG), b"", (22, 65)),
    (b"DEFINE " + N64 + b"N = @", b"", (22, 1)),
    (b"DEFINE " + N64 + b"N =", b"", (22, 1)),
    (b"DEFINE " + N64 + b"N = " + LONG, b"", (22, 1)),
    # the expression's own before 27
    (joined(*FULL, b"DEFINE N64 = @"), b"", (3, 65, 13)),
    (joined(*FULL, b"DEFINE N64 = 18446744073709551616"), b"", (4, 65, 13)),
    (joined(*FULL, b"DEFINE N64 = " + b"-" * 200 + b"0"), b"", (5, 65, 213)),
    (joined(*FULL, b"DEFINE N64 = " + b"(" * 17), b"", (6, 65, 29)),
    (joined(*FULL, b"DEFINE N64 ="), b"", (7, 65, 12)),
    (joined(*FULL, b"DEFINE N64 = 1 2"), b"", (7, 65, 15)),
    (joined(*FULL, b"DEFINE N64 = 1 | 2"), b"", (8, 65, 15)),
    (joined(*FULL, b"DEFINE N64 = g.None"), b"", (9, 65, 13)),
    (joined(*FULL, b"DEFINE N64 = 1 + 'a'"), b"", (10, 65, 15)),
    (joined(*FULL, b"DEFINE N64 = 5 - 7"), b"", (11, 65, 15)),
    (joined(*FULL, b"DEFINE N64 = 1 / 0"), b"", (12, 65, 15)),
    # and before 28
    (b"DEFINE A = " + LONG + b" @", b"", (3, 1, 71)),
    (b"DEFINE A = " + LONG + b" ''", b"", (7, 1, 71)),
    (b"DEFINE A = " + LONG + b" + 1", b"", (10, 1, 71)),
    (b"DEFINE A = 1 ? " + LONG + b" : g.None", b"", (9, 1, 77)),
    (b"DEFINE A = 1 ? " + LONG + b" : 1", b"", (10, 1, 13)),
    (b"DEFINE A = 1 / 0 ? " + LONG + b" : ''", b"", (12, 1, 13)),
    (b"DEFINE A = 5 - 7 ? '' : " + LONG, b"", (11, 1, 13)),
    # 28 before 27 (R50)
    (joined(*FULL, b"DEFINE N64 = " + LONG), b"", (28, 65)),
    (joined(*FULL, b"DEFINE N64 = L" + LONG), b"", (28, 65)),
    (joined(*FULL, b"DEFINE N00 = " + LONG), b"", (28, 65)),
    (joined(*FULL, b"DEFINE N64 = '" + b"y" * 56 + b"'"), b"", (27, 65)),
    (joined(*FULL, b"DEFINE N64 = L'" + b"y" * 56 + b"'"), b"", (27, 65)),
    (joined(*FULL, b"DEFINE N64 = 2"), b"", (27, 65)),
    # 17 before all
    (b"DEFINE" + b"x" * 1019, b"", (17, 1)),
    (b"DEFINE a = 1" + b" " * 1013, b"", (17, 1)),
    (joined(*FULL, b"DEFINE N64 = 1" + b" " * 1011), b"", (17, 65)),
    (joined(*FULL, b"DEFINE N64 = 1" + b" " * 1010), b"", (27, 65)),
    (b"DEFINE A = '" + b"y" * 1013, b"", (17, 1)),
    # the first line decides
    (joined(b"DEFINE A = " + LONG, b"!foo"), b"", (28, 1)),
    (joined(b"!foo", b"DEFINE A = " + LONG), b"", (18, 1)),
    (joined(b"DEFINE A", b"DEFINE B = @"), b"", (22, 1)),
    (joined(b"DEFINE A = @", b"DEFINE"), b"", (3, 1, 11)),
    (joined(*FULL, b"DEFINE N64 = 1", b"DEFINE A = " + LONG), b"", (27, 65)),
    (joined(b"!if 1", b"DEFINE A = 1 / 0"), b"", (12, 2, 13)),
    (joined(b"!if 1", b"DEFINE"), b"", (22, 2)),
]

# 1, 14, 15 and 16 before all lines; and files as large as they may be.
COUNTER = b"DEFINE A=$(A)+1\n"
IN_TURNS = [b"DEFINE N%02d=%d" % (each % MOST, each) for each in range(3840)]
STRING_LINES = [b"DEFINE N%02d = '%02d%s'" % (each, each, b"y" * 54) for each in range(MOST)]
STRING_TESTS = [b"!if $(N%02d) == '%02d%s'\nx\n!endif" % (each, each, b"y" * 54) for each in range(MOST)]
WIDE_LINES = [line.replace(b"= '", b"= L'") for line in STRING_LINES]
WIDE_TESTS = [line.replace(b"== '", b"== L'") for line in STRING_TESTS]
NUMBER_LINES = [b"DEFINE N%02d = 18446744073709551615 - %d" % (each, each) for each in range(MOST)]
NUMBER_TESTS = [b"!if $(N%02d) == 18446744073709551%03d\nx\n!endif" % (each, 615 - each) for each in range(MOST)]
LONG_NAMES = [b"DEFINE %s%02d = %d" % (b"N" * 62, each, each) for each in range(MOST)]
LONG_TESTS = [b"!if $(%s%02d) == %d\nx\n!endif" % (b"N" * 62, each, each) for each in range(MOST)]
SIZES = [
    (b"DEFINE A = 1\n", TABLE[:-1], (1, 0)),
    (b"DEFINE\n" + b"x" * 65536, b"", (14, 0)),
    (b"DEFINE\n" * 4097, b"", (15, 0)),
    (COUNTER * 4096, b"", ("6" * 4096, 4096)),
    (COUNTER * 4094 + b"!if $(A)==4094\n!endif", b"", ("6" * 4094 + "45", 4095)),
    (COUNTER * 4094 + b"!if $(A)==4093\n!endif", b"", ("6" * 4094 + "35", 4095)),
    (COUNTER * 4095 + b"DEFINE A = @", b"", (3, 4096, 11)),
    (COUNTER * 4095 + b"DEFINE", b"", (22, 4096)),
    (b"DEFINE A=1\nDEFINE B=$(A)\nDEFINE A=0\n" * 1000 + b"!if $(B)\n!endif", b"", ("666" * 1000 + "45", 0)),
    # 64 macros in turns, each with its last value
    (joined(*IN_TURNS, b"!if $(N00)==3776", b"!if $(N31)==3807", b"!if $(N63)==3839", *[b"!endif"] * 3), b"", ("6" * 3840 + "444555", 3)),
    # 64 macros with the most that they can hold, all used
    (joined(*STRING_LINES, *STRING_TESTS), b"", (SIXES + "415" * 64, 64)),
    (joined(*WIDE_LINES, *WIDE_TESTS), b"", (SIXES + "415" * 64, 64)),
    (joined(*NUMBER_LINES, *NUMBER_TESTS), b"", (SIXES + "415" * 64, 128)),
    (joined(*LONG_NAMES, *LONG_TESTS), b"", (SIXES + "415" * 64, 64)),
    (joined(*reversed(STRING_LINES), *STRING_TESTS), b"", (SIXES + "415" * 64, 64)),
    (joined(*STRING_LINES, *NUMBER_LINES, *NUMBER_TESTS), b"", (SIXES * 2 + "415" * 64, 128)),
    (joined(*NUMBER_LINES, *STRING_LINES, *STRING_TESTS), b"", (SIXES * 2 + "415" * 64, 128)),
    (joined(*STRING_LINES, *WIDE_LINES, *WIDE_TESTS), numbered(512), (SIXES * 2 + "415" * 64, 64)),
]

VECTORS = NAMES + STRINGS + LENGTHS + ORDER + SIZES
