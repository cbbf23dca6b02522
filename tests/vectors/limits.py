"""Selection: files at their limits and one past them, and which of two refusals is given. Worked out by hand from document 01
(Refusal numbers) and the decisions in docs/DECISIONS.md.

A vector is a file, a table and the answer: the marks as digits and the count of operators, or the refusal's number, line and offset; the
offset is left out where the refusal has no place.
"""
from settings import TABLE

MALFORMED = TABLE[:-1]
SIXTEEN = b"!if 1\n" * 16


def padded(front, length, byte=b" "):
    """A line of this length."""
    return front + byte * (length - len(front))


FULL = (b"x" * 1023 + b"\n") * 64

# 14 and 15, with line 0.
SIZES = [
    (FULL, ("1" * 64, 0)),
    (FULL[:-1], ("1" * 64, 0)),
    (FULL[:-1] + b"x", ("1" * 64, 0)),
    (FULL + b"x", (14, 0)),
    (FULL + b"\n", (14, 0)),
    (FULL + b"!", (14, 0)),
    (FULL[:-1] + b"xx", (14, 0)),
    (b"x" * 65537, (14, 0)),
    (b"x" * 65536, (17, 1)),
    (b"\r\n" * 32769, (14, 0)),
    (b"\n" * 65537, (14, 0)),
    (b"\n" * 65536, (15, 0)),
    (b"!if 0\n" + FULL[:-1024] + b"x" * 1007 + b"\n!endif\n!", (18, 67)),
    (b"!if 0\n" + FULL[:-1024] + b"x" * 1010 + b"\n!endif\n", ("3" + "0" * 64 + "5", 0)),
    (b"!if 0\n" + FULL[:-1024] + b"x" * 1010 + b"\n!endif \n", (14, 0)),
    (b"\n" * 4095, ("1" * 4095, 0)),
    (b"\n" * 4096, ("1" * 4096, 0)),
    (b"\n" * 4097, (15, 0)),
    (b"\n" * 4095 + b"x", ("1" * 4096, 0)),
    (b"\n" * 4096 + b"x", (15, 0)),
    (b"\n" * 4096 + b"\r", (15, 0)),
    (b"\r\n" * 4096, ("1" * 4096, 0)),
    (b"\r\n" * 4097, (15, 0)),
    (b"\r" * 4097, (17, 1)),
    (b"0123456789abcd\r\n" * 4096, ("1" * 4096, 0)),
    (b"0123456789abcd\r\n" * 4096 + b"x", (14, 0)),
    (b"\n" * 4094 + b"!if 1\n!endif", ("1" * 4094 + "45", 0)),
    (b"\n" * 4095 + b"!if 1\n", (21, 4096)),
    (b"\n" * 4095 + b"!foo\n", (18, 4096)),
    (b"\n" * 4095 + b"!if 1\n!endif\n", (15, 0)),
    (b"!if 0\n" + b"\n" * 4094 + b"!endif", ("3" + "0" * 4094 + "5", 0)),
    (b"!if 0\n" + b"\n" * 4095, (21, 1)),
    (b"!if 1\n!endif\n" * 2048, ("45" * 2048, 0)),
]

# 17, and its order: before 18 to 22 and all that follow in its line, but after every refusal of an earlier line.
LINES = [
    (b"x" * 1024, ("1", 0)),
    (b"x" * 1024 + b"\n", ("1", 0)),
    (b"x" * 1024 + b"\r\n", ("1", 0)),
    (b"x" * 1024 + b"\r", (17, 1)),
    (b"x" * 1024 + b"\r\r\n", (17, 1)),
    (b"x" * 1023 + b"\r\r\n", ("1", 0)),
    (b"x" * 1023 + b"\r", ("1", 0)),
    (b"x" * 1025, (17, 1)),
    (b"x" * 1025 + b"\n", (17, 1)),
    (b"x" * 1025 + b"\r\n", (17, 1)),
    (b" " * 1025, (17, 1)),
    (b"#" * 1025, (17, 1)),
    (b"\0" * 1025 + b"\n", (17, 1)),
    (b"x" * 1024 + b"\n" + b"x" * 1025, (17, 2)),
    (b"\n\n" + b"x" * 1025 + b"\n\n", (17, 3)),
    (b"x" * 1024 + b"\r\n" + b"x" * 1024 + b"\r\n" + b"x" * 1025 + b"\r\n", (17, 3)),
    (b"!if 0\n" + b"x" * 1024 + b"\n!endif", ("305", 0)),
    (b"!if 0\n" + b"x" * 1025 + b"\n!endif", (17, 2)),
    (b"!if 0\n!if 0\n" + b"x" * 1025 + b"\n!endif\n!endif", (17, 3)),
    (padded(b"!if 1", 1024) + b"\n!endif", ("45", 0)),
    (padded(b"!if 1", 1024) + b"\r\n!endif", ("45", 0)),
    (padded(b"!if 1", 1025) + b"\n!endif", (17, 1)),
    (padded(b"!if 1 #", 1024, b"x") + b"\n!endif", ("45", 0)),
    (padded(b"!if 1 #", 1025, b"x") + b"\n!endif", (17, 1)),
    (b"!if " + b" " * 1019 + b"1\n!endif", ("45", 0)),
    (b" " * 1019 + b"!if 1\n!endif", ("45", 0)),
    (b" " * 1020 + b"!if 1\n!endif", (17, 1)),
    (padded(b"!if '' < '", 1023, b"y") + b"'\n!endif", ("45", 1)),
    (padded(b"!if '' < '", 1024, b"y") + b"'\n!endif", (17, 1)),
    (padded(b"!if $(", 1023, b"M") + b")\n!endif", ("35", 0)),
    (padded(b"!ifdef ", 1024, b"M") + b"\n!endif", ("35", 0)),
    (padded(b"!ifndef ", 1025, b"M") + b"\n!endif", (17, 1)),
    (b"!if 1\n" + padded(b"!else", 1024) + b"\n" + padded(b"!endif", 1024), ("435", 0)),
    (b"!if 1\n" + padded(b"!else", 1025) + b"\n!endif", (17, 2)),
    (b"!if 1\n" + padded(b"!endif#", 1025, b"c"), (17, 2)),
    (b"!if 0\n" + padded(b"!if", 1024, b"@") + b"\n" + padded(b"!endif", 1024, b"@") + b"\n!endif", ("3225", 0)),
    (b"!if 0\n" + padded(b"!if", 1025, b"@") + b"\n!endif\n!endif", (17, 2)),
    (b"!if 0\n!if 1\n" + padded(b"!elif", 1025, b"@") + b"\n!endif\n!endif", (17, 3)),
    (b"!if 1\n" + padded(b"!elif", 1024, b"@") + b"\n!endif", ("425", 0)),
    (b"!if 1\n" + padded(b"!elif", 1025, b"@") + b"\n!endif", (17, 2)),
    (padded(b"!include ", 1025, b"x"), (17, 1)),
    # 17 before 18
    (padded(b"!foo", 1025), (17, 1)),
    (padded(b"!", 1025, b"f"), (17, 1)),
    (padded(b"!", 1024, b"f"), (18, 1)),
    # before 19
    (padded(b"!endif", 1025), (17, 1)),
    (padded(b"!else", 1025), (17, 1)),
    (padded(b"!elif 1", 1025), (17, 1)),
    (b"!if 1\n!else\n" + padded(b"!else", 1025), (17, 3)),
    # before 20
    (SIXTEEN + padded(b"!if 1", 1025), (17, 17)),
    (SIXTEEN + padded(b"!if 1", 1024), (20, 17)),
    # before 22, the expression's own and 13
    (padded(b"!if", 1025, b"#"), (17, 1)),
    (padded(b"!if @", 1025), (17, 1)),
    (padded(b"!if 1 / 0", 1025), (17, 1)),
    (padded(b"!if 2", 1025), (17, 1)),
    (padded(b"!if 2", 1024), (13, 1)),
    # before 21
    (b"!if 1\n" + b"x" * 1025, (17, 2)),
    # the first line that has one decides
    (b"!foo\n" + b"x" * 1025, (18, 1)),
    (b"!endif\n" + b"x" * 1025, (19, 1)),
    (SIXTEEN + b"!if 1\n" + b"x" * 1025, (20, 17)),
    (b"!if\n" + b"x" * 1025, (22, 1)),
    (b"!if @\n" + b"x" * 1025, (3, 1, 4)),
    (b"!if 2\n" + b"x" * 1025, (13, 1)),
    (b"x" * 1025 + b"\n!foo", (17, 1)),
]

# Which of two that one line has.
ORDER = [
    # 18 where others would be 19 to 22
    (b"!endiff x", (18, 1)),
    (b"!if 1\n!else\n!els\n", (18, 3)),
    (SIXTEEN + b"!ifx", (18, 17)),
    (b"!ifx\n!endif", (18, 1)),
    # 19 before 22
    (b"!else x", (19, 1)),  # R30
    (b"!endif x", (19, 1)),
    (b"!endif_x", (19, 1)),
    (b"!elseif", (19, 1)),
    (b"!elseif(1)", (19, 1)),
    (b"!elif#", (19, 1)),
    (b"!if 1\n!else\n!else x", (19, 3)),
    (b"!if 0\n!else\n!elif", (19, 3)),
    (b"!if 1\n!endif\n!endif x", (19, 3)),
    # before the expression's own and 13
    (b"!elseif @", (19, 1)),
    (b"!elseif 1 / 0", (19, 1)),
    (b"!elif ", (19, 1)),
    (b"!elif 2", (19, 1)),
    (b"!if 0\n!else\n!elseif @", (19, 3)),  # R30
    (b"!if 0\n!else\n!elseif 2", (19, 3)),
    # 20 before 22, the expression's own and 13
    (SIXTEEN + b"!if", (20, 17)),
    (SIXTEEN + b"!if@", (20, 17)),
    (SIXTEEN + b"!ifdef", (20, 17)),
    (SIXTEEN + b"!ifndef a b", (20, 17)),
    (SIXTEEN + b"!if @", (20, 17)),
    (SIXTEEN + b"!if 1 / 0", (20, 17)),
    (SIXTEEN + b"!if ", (20, 17)),
    (SIXTEEN + b"!if 2", (20, 17)),
    (SIXTEEN.replace(b"1", b"0") + b"!if 2", (20, 17)),
    (SIXTEEN + b"!elif @\n!if 2", (20, 18)),
    # line after line: an earlier line's higher number before a later line's lower one
    (b"!if 2\n!foo", (13, 1)),
    (b"!if 1 / 0\n!foo", (12, 1, 6)),
    (b"!if\n!foo", (22, 1)),
    (b"!endif\n!foo", (19, 1)),
    (b"!if 1\n!else x\n!endif\n!endif\n", (22, 2)),
    (b"!if 1\n!endif\n!if 2\n!endif x", (13, 3)),
]

WITHOUT_TABLE = SIZES + LINES + ORDER
VECTORS = [(file, b"", wanted) for file, wanted in WITHOUT_TABLE]
# 1 before everything else; every lent mark is then 255 (R29).
VECTORS += [(file, MALFORMED, (1, 0)) for file, wanted in WITHOUT_TABLE + [(b"", None), (b"x", None), (b"!if 1\n!endif", None)]]
VECTORS += [
    (b"", b"\0", (1, 0)),
    (b"x\n!endif", TABLE + TABLE[-128:], (1, 0)),
    (b"!if 1", TABLE[128:] + TABLE[:128], (1, 0)),
]
