"""The shape of a kept DEFINE line (order 6 of document 02): `DEFINE`, blanks, a macro name, `=` and an expression, the blanks round `=`
being free; and every way to miss it, which is 22 without a place. Worked out by hand from documents 01 and 02 and the decisions in
docs/DECISIONS.md.

A vector is a file and its answer: the marks as digits and the count of operators, or the refusal's number, line and offset; the offset is
left out where the refusal has no place. Nothing is set in the table.
"""
from define_words import BLANKS, BYTES

NAME_FIRST = b"ABCDEFGHIJKLMNOPQRSTUVWXYZ"
NAME_LATER = NAME_FIRST + b"0123456789_"
LONGEST = b"N" * 64

# Lines that set A to 7.
GOOD = [
    b"DEFINE A = 7",
    b"DEFINE A=7",
    b"DEFINE A= 7",
    b"DEFINE A =7",
    b"DEFINE  A  =  7",
    b"DEFINE\tA\t=\t7",
    b"DEFINE\tA=7",
    b"DEFINE \t \tA\t \t=\t \t7\t \t",
    b" DEFINE A = 7",
    b"\tDEFINE A = 7",
    b"  \t DEFINE A = 7  ",
    b"DEFINE A = 7 # c",
    b"DEFINE A = 7#c",
    b"DEFINE A=7#",
    b"DEFINE A = 7 # = 8 DEFINE A = 9",
    b"DEFINE A = 7 # \xff\0\r '",
    b"DEFINE A=(7)",
    b"DEFINE A = 0x7",
    b"DEFINE A" + b" " * 1000 + b"= 7",
    b"DEFINE" + b" " * 1000 + b"A = 7",
    b"DEFINE" + b"\t" * 1014 + b"A=7",
    b" " * 1014 + b"DEFINE A=7",
    b"DEFINE A =" + b" " * 1013 + b"7",
]

# Names that a macro can have, those of other words among them.
NAMES = [b"A", b"Z", b"AZ", b"A0", b"A_", b"A_9", b"Z__0", b"DEFINE", b"DEFINED", b"TRUE", b"FALSE", b"AND", b"NOT", b"EQ", b"L", LONGEST]

# 22
MISSED = [
    # no blank after the word
    b"DEFINE",
    b"DEFINE=",
    b"DEFINE=1",  # R53
    b"DEFINE= 1",
    b"DEFINE.x",  # R53
    b"DEFINE.A = 1",
    b'DEFINE"',  # R53
    b"DEFINE'A' = 1",
    b"DEFINE#",
    b"DEFINE# A = 1",
    b"DEFINE(A) = 1",
    b"DEFINE$(A) = 1",
    b"DEFINE-A = 1",
    b"DEFINE|A = 1",
    b"DEFINE!",
    b"DEFINE\\",
    b"DEFINE\xe9",
    b"DEFINE\xe9 A = 1",
    b"DEFINE\0A = 1",
    b"DEFINE\rA = 1",
    # no macro name after it
    b"DEFINE ",
    b"DEFINE\t",
    b"DEFINE \t ",
    b"DEFINE # A = 1",
    b"DEFINE =",
    b"DEFINE = 1",
    b"DEFINE == 1",
    b"DEFINE 1",
    b"DEFINE a = 1",
    b"DEFINE aA = 1",
    b"DEFINE _ = 1",
    b"DEFINE _A = 1",
    b"DEFINE 1A = 1",
    b"DEFINE 0 = 1",
    b"DEFINE 1 = 1",
    b"DEFINE $(A) = 1",  # R53
    b"DEFINE $(A)= 1",
    b"DEFINE $A = 1",
    b"DEFINE $(A = 1",
    b"DEFINE (A) = 1",
    b'DEFINE "A" = 1',
    b"DEFINE 'A' = 1",
    b"DEFINE g.Num = 1",  # R56
    b"DEFINE _._ = 1",
    b"DEFINE .A = 1",
    b"DEFINE !A = 1",
    b"DEFINE -A = 1",
    b"DEFINE \xc4 = 1",
    b"DEFINE \0A = 1",
    b"DEFINE \rA = 1",
    b"DEFINE \x0bA = 1",
    b"DEFINE \xa0A = 1",
    # no `=` after the name
    b"DEFINE A",
    b"DEFINE A ",
    b"DEFINE A\t\t",
    b"DEFINE A 1",
    b"DEFINE A 1 = 1",
    b"DEFINE A B = 1",
    b"DEFINE A A = 1",
    b"DEFINE A, B = 1",
    b"DEFINE A # = 1",
    b"DEFINE A#= 1",
    b"DEFINE A(1)",
    b"DEFINE A() = 1",
    b"DEFINE A.B = 1",  # R56
    b"DEFINE A. = 1",
    b"DEFINE Ab = 1",
    b"DEFINE Aa = 1",
    b"DEFINE A_b = 1",
    b"DEFINE A9z = 1",
    b"DEFINE A\xe9 = 1",
    b"DEFINE A\0 = 1",
    b"DEFINE A\r = 1",
    b"DEFINE A \r= 1",
    b"DEFINE A \x0b= 1",
    b"DEFINE A \xa0= 1",
    b"DEFINE A := 1",
    b"DEFINE A += 1",
    b"DEFINE A ?= 1",
    b"DEFINE A |= 1",
    b"DEFINE A != 1",
    b"DEFINE A <= 1",
    b"DEFINE A >= 1",
    b"DEFINE A EQ 1",
    b"DEFINE A $(B) = 1",
    b"DEFINE A '=' 1",
    b'DEFINE A "= 1"',
    # a name of over 64 bytes
    b"DEFINE N" + LONGEST + b" = 1",
    b"DEFINE N" + LONGEST + b"=1",
    b"DEFINE " + b"N" * 256 + b" = 1",
    b"DEFINE " + b"N" * 320 + b" = 1",
    b"DEFINE " + b"N" * 1013 + b" = 1",
    b"DEFINE " + b"N" * 1017,
    # whatever the expression is
    b"DEFINE a = @",
    b"DEFINE A 1 / 0",
    b"DEFINE A.B = 1 / 0",
    b"DEFINE $(A) = g.None",
    b"DEFINE = 1 | 2",
    b"DEFINE a = '" + b"x" * 57 + b"'",
    b"DEFINE a =",
]

# After `=` comes the expression, whatever it is: a line in two parts, and the number; the refusal is where the second part starts.
EXPRESSIONS = [
    # without any token (R49)
    (b"DEFINE A =", b"", 7),
    (b"DEFINE A=", b"", 7),
    (b"DEFINE A = ", b"", 7),
    (b"DEFINE A =\t \t", b"", 7),
    (b"DEFINE A = ", b"# c", 7),
    (b"DEFINE A =", b"#", 7),
    (b"\tDEFINE A\t=\t", b"# 1", 7),
    # another `=` (R53)
    (b"DEFINE A =", b"= 1", 3),
    (b"DEFINE A = ", b"= 1", 3),
    (b"DEFINE A=", b"=", 3),
    (b"DEFINE A =", b"=1 # c", 3),
    (b"DEFINE A = 1 ", b"= 2", 3),
    (b"DEFINE A =", b">1", 7),
    # what tools take that quote nothing
    (b"DEFINE A = ", b"FOO", 3),
    (b"DEFINE A = ", b"MdePkg/Library", 3),
    (b"DEFINE A = ", b"A.B", 9),
    (b"DEFINE A = 1", b", 2", 3),
    (b"DEFINE A = ", b"{0x01, 0x02}", 3),
    (b"DEFINE A = 1 ", b"DEFINE B = 2", 3),
    (b"DEFINE A = $(B)/", b"C", 3),
    (b"DEFINE A = $(B)", b"$(C)", 7),
    (b"DEFINE A = $(B) ", b"/ $(C)", 12),
    # CR
    (b"DEFINE A =", b"\r1", 3),
    (b"DEFINE A = 1", b"\r ", 3),
    (b"DEFINE A = 1", b"\x0b", 3),
]


def in_name(byte):
    """`DEFINE A`, this byte and ` = 1`."""
    if byte == b"=":
        return 3, 1, len(b"DEFINE A= ")
    return ("6", 0) if byte in NAME_LATER + BLANKS else (22, 1)


VECTORS = []
for line in GOOD:
    VECTORS += [
        (line, ("6", 0)),
        (line + b"\n!if $(A) == 7\n!endif", ("645", 1)),
        (b"x\r\n" + line + b"\r\n!if $(A) == 7\r\n!endif\r\n", ("1645", 1)),
        (b"!if 1\n" + line + b"\n!endif\n!if $(A) == 7\n!endif\n", ("46545", 1)),
    ]
for name in NAMES:
    VECTORS += [
        (b"DEFINE %s = 7\n!if $(%s) == 7\n!endif" % (name, name), ("645", 1)),
        (b"DEFINE %s=7\n!ifdef %s\n!endif" % (name, name), ("645", 0)),
    ]
for line in MISSED:
    VECTORS += [
        (line, (22, 1)),
        (b"DEFINE A = 1\r\n" + line + b"\r\n", (22, 2)),
        (b"!if 1\n\t" + line[:1023] + b"\n!endif", (22, 2)),
    ]
for front, back, number in EXPRESSIONS:
    VECTORS += [
        (front + back, (number, 1, len(front))),
        (b"DEFINE A = 1\r\n" + front + back + b"\r\n", (number, 2, len(front))),
        (b"!if 1\n " + front + back + b"\n!endif", (number, 2, 1 + len(front))),
    ]
VECTORS += [(b"DEFINE A%s = 1" % byte, in_name(byte)) for byte in BYTES]
VECTORS += [(b"DEFINE %s = 1" % byte, ("6", 0) if byte in NAME_FIRST else (22, 1)) for byte in BYTES]
# The line's end: one CR before the LF belongs to it, and no other.
VECTORS += [
    (b"DEFINE A = 1\r\n", ("6", 0)),
    (b"DEFINE A = 1\r\r\n", (3, 1, 12)),
    (b"DEFINE A = 1\r", (3, 1, 12)),
    (b"DEFINE A = 1 # c\r", ("6", 0)),
    (b"DEFINE A = 1 # c\r\r\n", ("6", 0)),
    (b"DEFINE A = 'x\r'\n", (3, 1, 11)),
    (b"DEFINE A =\r\n", (7, 1, 10)),
    (b"DEFINE A\r\n", (22, 1)),
    (b"DEFINE\r\n", (22, 1)),
    (b"DEFINE\r", (22, 1)),
    (b"DEFINE A\r\n= 1\r\n", (22, 1)),
    (b"DEFINE A = \\\n1\n", (3, 1, 11)),
    (b"DEFINE\nA = 1", (22, 1)),
]
