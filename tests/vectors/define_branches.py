"""DEFINE lines in groups (order 6 of document 02): one that is kept sets its macro for the rest of the file, and one that is not kept is a
plain line like any other, whatever its text is. Worked out by hand from documents 01 and 02.

A vector is a file, with `|` for the LF between its lines, and its answer: the marks as digits and the count of operators, or the refusal's
number and line. Nothing is set in the table.
"""
KEPT = [
    # in a branch that is taken, and used inside of it and after the group
    (b"!if 1|DEFINE A = 1|!endif|!if $(A)|x|!endif", ("465415", 0)),
    (b"!if 1|DEFINE A = 1|!if $(A)|x|!endif|!endif", ("464155", 0)),
    (b"!if 1|DEFINE A = 1|!else|DEFINE A = 2|!endif|!if $(A) == 1|x|!endif", ("46305415", 1)),
    (b"!if 0|DEFINE A = 1|!else|DEFINE A = 2|!endif|!if $(A) == 2|x|!endif", ("30465415", 1)),
    (b"!ifdef A|!else|DEFINE A = 1|!endif|!ifdef A|!else|DEFINE A = 0|!endif|!if $(A)|!endif", ("3465430545", 0)),
    (b"!if 0|DEFINE A = 1|!elif 1|DEFINE A = 2|!elif 1|DEFINE A = 3|!else|DEFINE A = 4|!endif|!if $(A) == 2|!endif", ("30462030545", 1)),
    (b"!if 0|DEFINE A = 1|!elseif 0|DEFINE A = 2|!else|DEFINE A = 3|!endif|!if $(A) == 3|!endif", ("303046545", 1)),
    (b"!if 1|" * 16 + b"DEFINE A = 1|" + b"!endif|" * 16 + b"!if $(A)|!endif", ("4" * 16 + "6" + "5" * 16 + "45", 0)),
    (b"!if 1|!if 0|!else|DEFINE A = 1|!endif|DEFINE B = $(A)|!endif|!if $(B)|!endif", ("434656545", 0)),
    # redefined, inside and outside
    (b"DEFINE A = 1|!if $(A) == 1|DEFINE A = 2|!endif|!if $(A) == 2|x|!endif", ("6465415", 2)),
    (b"DEFINE A = 1|!if 0|DEFINE A = 2|!endif|!if $(A) == 1|x|!endif", ("6305415", 1)),
    (
        b"DEFINE A = 1|!if $(A) == 1|DEFINE A = 2|!if $(A) == 2|DEFINE A = 3|!endif|!if $(A) == 3|DEFINE A = 4|!endif|!endif"
        b"|!if $(A) == 4|x|!endif",
        ("6464654655415", 4),
    ),
    (b"!if 1|DEFINE A = 1|!if 1|DEFINE A = 2|!else|DEFINE A = 3|!endif|!endif|!if $(A) == 2|!endif", ("4646305545", 1)),
    # a condition was decided where it was read
    (b"DEFINE A = 1|!if $(A)|DEFINE A = 0|x|!else|y|!endif|!if $(A)|z|!endif", ("6461305305", 0)),
    (b"!ifndef A|DEFINE A = 1|x|!else|y|!endif", ("461305", 0)),
    (b"!ifndef A|DEFINE A = 1|!elseif $(A)|y|!endif", ("46205", 0)),
    (b"DEFINE A = 0|!if $(A)|DEFINE A = 1|!elseif $(A)|x|!else|y|!endif", ("63030415", 0)),
    (b"DEFINE A = 1|!if 0|DEFINE A = 0|!elseif $(A)|x|!else|y|!endif", ("63041305", 0)),
    (b"!if 1|DEFINE A = 0|!elseif 1 / $(A)|x|!endif", ("46205", 0)),
    # one group after another
    (b"!if $(A)|x|!endif|DEFINE A = 1|!if $(A)|y|!endif|DEFINE A = 0|!if $(A)|z|!endif", ("30564156305", 0)),
    # the table of contents of a platform
    (b"[Defines]|DEFINE A = TRUE|DEFINE B = $(A)|[Components]|!if $(A) AND $(B)|x.inf|!endif", ("1661415", 1)),
    # 21 and 19 are as ever
    (b"!if 1|DEFINE A = 1", (21, 1)),
    (b"DEFINE A = 1|!endif", (19, 2)),
    (b"DEFINE A = 1|!foo", (18, 2)),
]

# Lines that would set A, or be refused, if they were kept.
DROPPED = [
    b"DEFINE A = 1",
    b"DEFINE A = 'x'",
    b"DEFINE",
    b"DEFINE A",
    b"DEFINE=1",
    b"DEFINE.x",
    b'DEFINE"',
    b"DEFINE\xe9\0\r",
    b"DEFINE a = 1",
    b"DEFINE $(A) = 1",
    b"DEFINE " + b"A" * 65 + b" = 1",
    b"DEFINE " + b"A" * 1017,
    b"DEFINE A =",
    b"DEFINE A = @",
    b"DEFINE A = 'x",
    b"DEFINE A = 18446744073709551616",
    b"DEFINE A = " + b"-" * 300,
    b"DEFINE A = " + b"(" * 300,
    b"DEFINE A = 1 2",
    b"DEFINE A = 1 + ",
    b"DEFINE A = 1 | 2",
    b"DEFINE A = g.None",
    b"DEFINE A = 1 + 'x'",
    b"DEFINE A = 5 - 7",
    b"DEFINE A = 1 / 0",
    b"DEFINE A = '" + b"x" * 57 + b"'",
    b"DEFINE A = some/path",
    b"DEFINE A = 1" + b" " * 1012,
]


def unkept(line):
    """Files in which a line is not kept, with their marks; and then whether A is set, which it is not."""
    for file, marks in [
        (b"!if 0|%s|!endif", "305"),
        (b"!if 1|!else|%s|!endif", "4305"),
        (b"!if 1|!elseif @|%s|!endif", "4205"),
        (b"!if 0|!elif 0|%s|!endif", "3305"),
        (b"!if 0|!elif 1|!elif|%s|!else|%s|!endif", "3420305"),
        (b"!if 0|!if 1|%s|!else|%s|!endif|!endif", "3202025"),
        (b"!if 1|!ifdef A|%s|!endif|!endif", "43055"),
    ]:
        yield (file + b"|!ifdef A|!endif").replace(b"|", b"\n").replace(b"%s", line), (marks + "35", 0)


VECTORS = [(file.replace(b"|", b"\n"), wanted) for file, wanted in KEPT]
VECTORS += [vector for line in DROPPED for vector in unkept(line)]
# 17 is for dropped lines too.
TOO_LONG = b"DEFINE A = 1" + b" " * 1013
VECTORS += [
    (TOO_LONG, (17, 1)),
    (TOO_LONG + b"\r\n", (17, 1)),
    (b"!if 0\n" + TOO_LONG + b"\n!endif", (17, 2)),
    (b"!if 1\n!elseif @\n" + TOO_LONG + b"\n!endif", (17, 3)),
    (b"DEFINE A = @" + b" " * 1013, (17, 1)),
    (b"DEFINE" + b" " * 1019, (17, 1)),
    (b"DEFINE A = 1 #" + b"c" * 1011, (17, 1)),
]
