"""Texts with bars, `|` and `||`, in two places: after !if, !elseif and !elif, where bars need no parentheses (document 02, order 1), and
as an expression by itself and in a data field, where they do. Worked out by hand, under the table of settings.py.
"""
from settings import TABLE, numbers

# Bars outside parentheses: a text in two parts, of which the second starts with the leftmost such bar (8 by itself), and its mark and count
# of operators after a directive's word.
OUTSIDE = [
    (b"1 ", b"| 1", 4, 1),
    (b"1 ", b"| 0", 4, 1),
    (b"0 ", b"| 0", 3, 1),
    (b"1 ", b"|| 0", 4, 1),
    (b"0 ", b"|| 0", 3, 1),
    (b"0", b"||1", 4, 1),
    (b"0", b"|1", 4, 1),
    (b"0 ", b"|| 2", 4, 1),
    (b"$(A) == 2 ", b"|| $(Z) == 1", 4, 2),
    (b"$(A) == 3 ", b"|| $(Z) == 0", 4, 3),
    (b"$(A) == 3 ", b"|| $(Z) == 1", 3, 3),
    (b"($(A) == 3) ", b"|| ($(Z) == 0)", 4, 3),
    (b"(1 | 0) ", b"| 1", 4, 2),
    (b"1 ", b"| (0 | 1)", 4, 2),
    (b"g.Num == 7 ", b"|| 'a' == 'b' # c", 4, 2),
    # levels: | under ==, over AND; || under AND, over ?:
    (b"1 ", b"| 2 == 2", 4, 2),
    (b"1 ", b"| 1 AND 0", 3, 2),
    (b"1 ", b"|| 0 AND 0", 4, 1),
    (b"1 ", b"|| 0 ? 0 : 1", 3, 2),
    (b"1 ? 0 ", b"|| 1 : 2", 4, 2),
    (b"1 ^ 1 ", b"| 1", 4, 2),
    (b"1 ", b"| 1 ^ 1", 4, 2),
    (b"1 OR 0 ", b"|| 1", 4, 2),
    (b"1 ", b"|| 1 XOR 1", 4, 1),
    (b"1 ? 1 : 0 ", b"|| 0", 4, 1),
    # at the limits: 16 parentheses, 200 tokens
    (b"1 ", b"| " + b"(" * 16 + b"0" + b")" * 16, 4, 1),
    (b"!1 ", b"| 1" + b" | 1" * 98, 4, 100),
    # skipped operands, with bars inside them and without
    (b"1 ", b"|| 1 / 0", 4, 1),
    (b"1 ", b"|| 5 - 7 | 1", 4, 1),
    (b"0 AND 1 ", b"| 2", 3, 1),
    (b"0 AND 1 / 0 ", b"|| 1", 4, 2),
    (b"1 ? 1 : 2 ", b"| 1 / 0", 4, 1),
    (b"0 ? 2 ", b"| 1 : 0", 3, 1),
]

# The same number in both places: a text with its mark and count.
INSIDE = [
    # the bar that a comment or a string holds is none
    (b"1 # | 1", 4, 0),
    (b"'|' == \"||\"", 3, 1),
    # all bars in parentheses
    (b"(1 | 0)", 4, 1),
    (b"(0 || 2)", 4, 1),
    (b"((1) | (0))", 4, 1),
]

# The same refusal in both places, since 3 to 7 come before 8: a text in two parts, and the number; it is where the second part starts.
BEFORE = [
    (b"1 | ", b"@", 3),
    (b"1 || ", b"18446744073709551616", 4),
    (b"1" + b" | 1" * 99 + b" | ", b"1", 5),
    (b"1 | " + b"(" * 16, b"(1" + b")" * 17, 6),
    (b"1 |", b"", 7),
    (b"", b"| 1", 7),
    (b"", b"||", 7),
    (b"1 | ", b"| 1", 7),
    (b"1 ||", b"| 1", 7),
    (b"1 || ", b"|| 1", 7),
]

# 9 to 12 in a directive, where 8 hides them elsewhere: a text in two parts, the number and the offset of the bar. The refusal in a
# directive is where the second part starts.
HIDDEN = [
    (b"1 || ", b"g.None", 9, 2),
    (b"", b"g.None | 1", 9, 7),
    (b"", b"g.None | 'a'", 9, 7),
    (b"1 ", b"| 'a'", 10, 2),
    (b"1 ", b"|| 'a'", 10, 2),
    (b"L'a' ", b"|| 1", 10, 5),
    (b"$(S) ", b"|| 1", 10, 5),
    (b"$(NOPE) ", b"== 'a' || 1", 10, 15),
    (b"'a' ", b"| 1 / 0", 10, 4),
    (b"5 ", b"- 7 || 1", 11, 6),
    (b"0 || 1 ", b"<< 64", 11, 2),
    (b"0 || 1 ", b"/ 0", 12, 2),
    (b"1 | 1 ", b"/ 0", 12, 2),
]

# 13 in a directive, without a place, and 8 elsewhere, where the second part starts.
NO_CONDITIONS = [
    (b"2 ", b"| 1"),
    (b"2 ", b"| 4"),
    (b"0 ", b"|| 1 ? 'a' : 'b'"),
    (b"$(M) ", b"| 1"),
]

# After a word: a text, and its mark and count, or the number without a place; and what is refused at the second part of a text.
CONDITIONS = (
    [(b" " + front + back, (mark, count)) for front, back, mark, count in OUTSIDE]
    + [(b" " + text, (mark, count)) for text, mark, count in INSIDE]
    + [(b" " + front + back, 13) for front, back in NO_CONDITIONS]
)
REFUSED_CONDITIONS = [(b" " + front, back, number) for front, back, number, *_ in BEFORE + HIDDEN]
# By themselves: an expression with its number and offset.
BY_THEMSELVES = (
    [(front + back, 8, len(front)) for front, back, *_ in OUTSIDE + NO_CONDITIONS]
    + [(front + back, number, len(front)) for front, back, number in BEFORE]
    + [(front + back, 8, bar) for front, back, _, bar in HIDDEN]
)
# mark 3 shows 0, mark 4 shows 1
NUMBERS = [(text, mark - 3, count) for text, mark, count in INSIDE]

# R36. Whole files with their tables: the customer's case with each setting, and bars where nothing is read or no bar may be.
BOARDS = b"!if $(A) == 1 || $(B) == 1\nx\n!elseif $(A) | $(B)\ny\n!else\nz\n!endif\n"
VECTORS = [
    (BOARDS, numbers(A=1, B=1), ("4120305", 2)),
    (BOARDS, numbers(A=1, B=0), ("4120305", 2)),
    (BOARDS, numbers(A=0, B=1), ("4120305", 3)),
    (BOARDS, numbers(A=0, B=0), ("3030415", 4)),
    (BOARDS, numbers(A=2, B=2), (13, 3)),
    (BOARDS, numbers(B=1), ("4120305", 3)),
    (BOARDS, b"", ("3030415", 4)),
    (b"!if 1\n!elseif 1 | | @\n!endif\n", b"", ("425", 0)),
    (b"!if 0\n!if || |\n!elif | 8\n!endif\n!endif\n", b"", ("32225", 0)),
    (b"!if 0\n!elseif 1 | 0\n!endif\n", b"", ("345", 1)),
    (b"!if 1 || 0\r\nx\r\n!endif\r\n", b"", ("415", 1)),
    (b"!if 2 | 1\n!endif\n", b"", (13, 1)),
    (b"!if 1 | 1\n!endif\n", TABLE[:-1], (1, 0)),
    (b"!ifdef A || B\n!endif\n", numbers(A=1, B=1), (22, 1)),
    (b"!ifndef A | B\n!endif\n", b"", (22, 1)),
    (b"!if 1\n!else || 1\n!endif\n", b"", (22, 2)),
    (b"!if 1\n!endif | 1\n", b"", (22, 2)),
    (b"!if|| 1\n!endif\n", b"", (22, 1)),
    (b"  gToken.Pcd|1|UINT8 # a plain line\n", TABLE, ("1", 0)),
]
