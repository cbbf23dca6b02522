"""Where a refusal of a selection is (order 3 of document 02): its offset is counted from the first byte of its line, blanks and the
directive's word included. Under the table of settings.py.

A vector is what comes before the line, the line in two parts, what comes after it, and the number: the refusal is where the line's second
part starts. Without a place the first part is empty.
"""
# The same after each word, and with blanks of any sort before and after it.
WORDS = [
    (b"", b"!if ", b"@", b"\n!endif\n", 3),
    (b"", b"!if\t", b"@", b"\n!endif\n", 3),
    (b"", b"!if   ", b"@", b"\n!endif\n", 3),
    (b"", b" !if ", b"@", b"\n!endif\n", 3),
    (b"", b"\t\t!if \t", b"@", b"\n!endif\n", 3),
    (b"", b" \t !if\t\t1\t", b"/\t0", b"\n!endif\n", 12),
    (b"!if 0\n", b"!elseif ", b"@", b"\n!endif\n", 3),
    (b"!if 0\n", b"  !elseif\t1 ", b"/ 0", b"\n!endif\n", 12),
    (b"!if 0\n", b"!elif ", b"@", b"\n!endif\n", 3),
    (b"!if 0\n", b"\t!elif  5 ", b"- 7", b"\n!endif\n", 11),
    (b"!if 0\n!elif 0\n!elseif 0\n", b"!elif 1 ", b"== 'a'", b"\n!endif\n", 10),
    (b"!ifdef NOPE\n", b"!elseif 1 + ", b"g.None", b"\n!endif\n", 9),
    # `!` is an operator after the word
    (b"", b"!if ", b"!'a'", b"\n!endif\n", 10),
    (b"", b"!if !0 ", b"!0", b"\n!endif\n", 7),
]

# Each number from 3 to 12 but 8, which no directive has.
NUMBERS = [
    (b"", b"!if 1 ==", b"= 1", b"\n", 3),
    (b"", b"!if 1 OR ", b"18446744073709551616", b"\n", 4),
    (b"", b"!if " + b"-" * 200, b"0", b"\n", 5),
    (b"", b"!if 1" + b" " * 3 + b"+1" * 99 + b" + ", b"1", b"\n", 5),
    (b"", b"!if " + b"(" * 16, b"(1" + b")" * 17, b"\n", 6),
    (b"", b"!if 1 ", b"2", b"\n", 7),
    (b"", b"!if g.Num + ", b"g.None", b"\n", 9),
    (b"", b"!if 'b' + ('a' ", b"+ 1)", b"\n", 10),
    (b"", b"!if (0 AND 1 / 0) + 5 ", b"- 7", b"\n", 11),
    (b"", b"!if 1 + 1 ", b"% 0 # c", b"\n", 12),
    # where a bar is outside parentheses, the next refusal is the answer
    (b"", b"!if 1 | ", b"@", b"\n", 3),
    (b"", b"!if 1 |", b"", b"\n", 7),
    (b"", b"!if 1 ||", b"| 1", b"\n", 7),
    (b"", b"!if 1 || ", b"g.None", b"\n", 9),
    (b"", b"!if ", b"g.None | h.None", b"\n", 9),
    (b"", b"!if 1 ", b"| 'a'", b"\n", 10),
    (b"", b"!if 'a' || 1 ", b"+ 'b'", b"\n", 10),
    (b"", b"!if 1 ", b"|| 'b' || 'c'", b"\n", 10),
    (b"", b"!if 5 ", b"- 7 || 1", b"\n", 11),
    (b"", b"!if 0 || 1 ", b"/ 0", b"\n", 12),
    (b"", b"!if (1 || 1 / 0) | 1 ", b"/ 0", b"\n", 12),
]

# 7 where the argument is a good beginning: its `#`, or the line's length, blanks included and the line's end left out.
ENDS = [
    (b"", b"!if ", b"", b"", 7),
    (b"", b"!if ", b"", b"\n", 7),
    (b"", b"!if ", b"", b"\r\n", 7),
    (b"", b"!if\t", b"", b"\n!endif\n", 7),
    (b"", b"!if    ", b"", b"\r\n!endif\r\n", 7),
    (b"", b"!if ", b"# c", b"\n", 7),
    (b"", b"!if ", b"#", b"", 7),
    (b"", b"!if \t ", b"# 1", b"\r\n", 7),
    (b"", b"!if 1 +", b"", b"\r\n", 7),
    (b"", b"!if 1 +  ", b"", b"\n", 7),
    (b"", b"!if 1 +  ", b"", b"\r\n", 7),
    (b"", b"!if 1 + ", b"# c\r", b"\n", 7),
    (b"", b"!if 1 + ", b"# c\r", b"", 7),
    (b"", b"!if " + b"-" * 200, b"", b"\n", 7),
    (b"", b"  !if (1", b"", b"", 7),
    (b"!if 0\n", b"!elseif ", b"", b"\n!endif\n", 7),
    (b"!if 0\r\n", b"\t!elif 1 ? 2 ", b"", b"\r\n!endif\r\n", 7),
    (b"!if 0\n", b"!elif\t", b"# c", b"\n!endif\n", 7),
]

# A CR that belongs to the line (R26).
RETURNS = [
    (b"", b"!if 1", b"\r", b"", 3),
    (b"", b"!if 1", b"\r", b"\r\n!endif\r\n", 3),
    (b"", b"!if 1 ", b"\r 1", b"\n!endif\n", 3),
    (b"", b"!if ", b"\r", b"\r\n", 3),
    (b"", b"!if 1 == ", b"'a\r", b"\r\n", 3),
    (b"x\r\r\n", b"!if 1 ", b"/ 0", b"\r\n!endif\r\n", 12),
]

# Lines before: their bytes do not count.
LATER = [
    (b"x\n", b"!if ", b"@", b"\n!endif\n", 3),
    (b"\n\n\n", b"!if 1 ", b"/ 0", b"\n!endif\n", 12),
    (b"x\r\n\r\n", b" !if 1 ", b"2", b"\r\n!endif\r\n", 7),
    (b"x" * 1024 + b"\n", b"!if 5 ", b"- 7", b"\n!endif\n", 11),
    (b"\n" * 4095, b"!if ", b"@", b"", 3),
    (b"!if 1\n!if 0\n!if @\n!endif\n!else\n", b"!if 1 ", b"== 'a'", b"\n!endif\n!endif\n!endif\n", 10),
    (b"!if 1\n!elseif @\n!endif\n", b"!if 1 + ", b"a.1", b"\n!endif\n", 3),
    (b"!if 1\n" * 15, b"!if ", b"g.None", b"\n", 9),
    # the first line decides
    (b"", b"!if ", b"@", b"\n!if 1 / 0\n", 3),
    (b"", b"!if 1 ", b"/ 0", b"\n!foo\n", 12),
]

# Lines of 1,024 bytes.
LONGEST = [
    (b"", b"!if" + b" " * 1020, b"@", b"\n!endif\n", 3),
    (b"", b"!if" + b" " * 1020, b"@", b"\r\n!endif\r\n", 3),
    (b"", b" " * 1019 + b"!if ", b"@", b"\n!endif\n", 3),
    (b"", b"!if 1 +" + b" " * 1017, b"", b"\n", 7),
    (b"", b"!if 1 +" + b" " * 1017, b"", b"\r\n", 7),
    (b"", b"!if 1 +" + b" " * 1016, b"#", b"\n", 7),
    (b"", b"!if" + b" " * 1017 + b"1 ", b"/0", b"\n!endif\n", 12),
    (b"", b"!if" + b" " * 1018 + b"5", b"-7", b"\n!endif\n", 11),
    (b"!if 0\n", b"!elseif" + b"\t" * 1016 + b"(", b"", b"\n", 7),
    (b"!if 0\n", b"!elif" + b"\t" * 1013, b"g.None", b"\n", 9),
    (b"", b"!if '" + b"x" * 1016 + b"'", b"+1", b"\n", 10),
]

# No place: the offset is 0, though there is a byte that is to blame (R39).
WITHOUT = [
    (b"x\n", b"", b"!if 2", b"\n!endif\n", 13),
    (b"", b"", b"  !if 'a'", b"\n!endif\n", 13),
    (b"!if 0\n", b"", b"!elseif 1 + 1", b"\n!endif\n", 13),
    (b"", b"", b"x" * 1025, b"", 17),
    (b"", b"", b"!if @" + b" " * 1020, b"", 17),
    (b"", b"", b"\t!foo", b"", 18),
    (b"x\n", b"", b"  !endif", b"", 19),
    (b"!if 1\n!else\n", b"", b"!elseif @", b"", 19),
    (b"!if 1\n" * 16, b"", b" !if @", b"", 20),
    (b"x\n", b"", b"\t!if 1", b"\nx\n", 21),
    (b"", b"", b"!if(1)", b"", 22),
    (b"", b"", b"!if@", b"", 22),
    (b"", b"", b"!if#", b"", 22),
    (b"", b"", b" !ifdef A B", b"", 22),
    (b"", b"", b"!ifndef  a", b"", 22),
    (b"!if 1\n", b"", b"!else x", b"", 22),
    (b"!if 1\n", b"", b"  !endif 1", b"", 22),
]

PLACED = WORDS + NUMBERS + ENDS + RETURNS + LATER + LONGEST


def vectors():
    """The file, and the number with its line and offset."""
    for before, front, back, after, number in PLACED:
        yield before + front + back + after, (number, before.count(b"\n") + 1, len(front))
    for before, front, back, after, number in WITHOUT:
        yield before + front + back + after, (number, before.count(b"\n") + 1)


VECTORS = list(vectors())
