"""Selection: the text after a word that is read, under the table of settings.py. Worked out by hand from document 01 (Lines and
directives) and the decisions in docs/DECISIONS.md. Each text is tried where it is read and where it is not.
"""
import bars
from editions import MALFORMED_TEXT, Differ, mapped
from settings import LONGEST_MACRO, LONGEST_PCD, TABLE

# After !if, !elseif and !elif: the mark and the count of operators, or the number of a refusal without a place.
CONDITIONS = [
    (b" 1", (4, 0)),
    (b" 0", (3, 0)),
    (b"\t1", (4, 0)),
    (b" \t 0 \t ", (3, 0)),
    (b" 1#c", (4, 0)),
    (b" 1 # @ '", (4, 0)),
    (b" TRUE", (4, 0)),
    (b" False", (3, 0)),
    (b" 0x1", (4, 0)),
    (b" 0X00", (3, 0)),
    (b" (1)", (4, 0)),
    (b" !1", (3, 1)),
    (b" !!1", (4, 2)),
    (b" -0", (3, 1)),
    (b" 3 - 2", (4, 1)),
    (b" 1 == 1 # 2", (4, 1)),
    (b" 6 & 3 == 3", (3, 2)),
    (b" (1 | 0)", (4, 1)),
    (b" (0 || 2)", (4, 1)),
    (b" 0 OR 2", (4, 1)),
    (b" 0 AND 1 / 0", (3, 1)),
    (b" 1 OR 5 - 7", (4, 1)),
    (b" 1 ? 1 : 1 / 0", (4, 1)),
    (b" '#' == \"#\"", (4, 1)),
    (b" '!endif' < 'a'", (4, 1)),
    # names of the table, and missing ones
    (b" $(NOPE)", (3, 0)),
    (b" $(NOPE) == 0", (4, 1)),
    (b" $(Z)", (3, 0)),
    (b" $(TRUE)", (3, 0)),
    (b" $(A) == 2", (4, 1)),
    (b" $(A) == 3", (3, 1)),
    (b" g.Num == 7", (4, 1)),
    (b" $(S) == 'two'", (4, 1)),
    (b" $(W) == L'wide'", (4, 1)),
    (b" a.Str != 'pcd'", (3, 1)),
    (b" $(E) == ''", (4, 1)),
    (b" $(" + LONGEST_MACRO + b") == 64", (4, 1)),
    (b" $(" + LONGEST_MACRO + b"X)", (3, 0)),
    (b" " + LONGEST_PCD + b" == 65", (4, 1)),
    # 22: no blank directly after the word
    (b"", 22),  # R23
    (b"#", 22),  # R23
    (b"# 1", 22),
    (b"(1)", 22),  # R23
    (b"1", 22),
    (b"!0", 22),
    (b"$(A)", 22),
    (b"\"a\"", 22),
    (b"-0", 22),
    (b"=1", 22),
    (b"\x0b1", 22),
    (b"\r1", 22),
    # 22 before the expression's own
    (b"@", 22),
    (b"'a", 22),
    (b"18446744073709551616", 22),
    (b"-" * 201, 22),
    (b"(" * 17, 22),
    (b"(", 22),
    (b"1 | 1", 22),
    (b"(g).p", 22),
    (b"1 == 'a'", 22),
    (b"5 - 7", 22),
    (b"1 / 0", 22),
    (b"2", 22),
    # 16 parentheses
    (b" " + b"(" * 16 + b"1" + b")" * 16, (4, 0)),
    # 13: neither the number 0 nor the number 1
    (b" 2", 13),
    (b" 0x100", 13),
    (b" 4294967296", 13),
    (b" 4294967297", 13),
    (b" 18446744073709551615", 13),
    (b" ~0", 13),
    (b" 1 + 1", 13),
    (b" $(A)", 13),
    (b" $(M)", 13),
    (b" g.Num", 13),
    (b" 'a'", 13),  # R24
    (b" ''", 13),
    (b" \"1\"", 13),
    (b" L'a'", 13),
    (b" L\"\"", 13),
    (b" $(S)", 13),
    (b" $(E)", 13),
    (b" $(W)", 13),
    (b" $(F)", 13),
    (b" a.Str", 13),
    (b" g.Wide", 13),
    (b" 1 ? 'a' : 'b'", 13),
]

# After the same words, the expression's own refusals: a text in two parts, and the number; the refusal is where the second part starts.
REFUSED = [
    # 3
    (b" ", b"@", 3),
    (b" ", b"foo", 3),
    (b" ", b"A", 3),
    (b" ", b"007", 3),
    (b" ", b"0x", 3),
    (b" ", b"'a", 3),
    (b" ", b"$(a)", 3),
    (b" 1", b"\r ", 3),
    (b" ", b"\0", 3),
    (b" ", b"\xe9", 3),
    (b" !", b"if 1", 3),
    (b" 1 ", b"= 1", 3),
    # 4, 5, 6
    (b" ", b"18446744073709551616", 4),
    (b" 1 OR ", b"99999999999999999999", 4),
    (b" " + b"-" * 200, b"0", 5),
    (b" " + b"(" * 16, b"(1" + b")" * 17, 6),
    # 7, without any token too
    (b" ", b"", 7),  # R23
    (b"\t", b"", 7),
    (b" \t ", b"", 7),
    (b" ", b"#", 7),
    (b" ", b"# c", 7),  # R23
    (b" 1 ", b"2", 7),
    (b" (", b")", 7),
    (b" 1 +", b"", 7),
    (b" 1 ? 1", b"", 7),
    # 9, 10
    (b" ", b"g.None", 9),
    (b" 0 AND ", b"g.None", 9),
    (b" ", b"A.A", 9),
    (b" ", LONGEST_PCD + b"x", 9),
    (b" 1 ", b"== 'a'", 10),
    (b" 0 ", b"AND 'a'", 10),
    (b" $(NOPE) ", b"== ''", 10),
    (b" $(S) ", b"== L'two'", 10),
    # 11, 12
    (b" 5 ", b"- 7", 11),
    (b" ", b"-1", 11),
    (b" 1 ", b"<< 64", 11),
    (b" 1 ", b"/ 0", 12),
    (b" 1 ", b"% $(Z)", 12),
    # all of them before 13
    (b" 2 ", b"@", 3),
    (b" 2 + ", b"18446744073709551616", 4),
    (b" 2 ", b"2", 7),
    (b" 2 + ", b"g.None", 9),
    (b" 2 ", b"+ 'a'", 10),
    (b" 2 ", b"- 3", 11),
    (b" 2 ", b"/ 0", 12),
    (b" 'a' ", b"'b'", 7),
]

# After !ifdef and !ifndef: whether the name is set, or a refusal number.
NAMES = [
    (b" A", True),
    (b"\tA", True),
    (b" \t A \t ", True),
    (b" A # c", True),
    (b" A#c", True),  # R22
    (b" A#", True),
    # whatever its value
    (b" Z", True),
    (b" E", True),
    (b" F", True),
    (b" S", True),
    (b" M", True),
    (b" TRUE", True),
    (b" " + LONGEST_MACRO, True),
    (b" NOPE", False),
    (b" B", False),
    (b" AA", False),
    (b" A_", False),
    (b" A0", False),
    (b" FALSE", False),
    (b" AND", False),
    (b" L", False),
    (b" TRU", False),
    # no record can have such a name
    (b" " + LONGEST_MACRO + b"X", False),  # R28
    (b" " + LONGEST_MACRO[1:], False),
    (b" " + b"X" * 1000, False),
    # 22
    (b"", 22),
    (b" ", 22),
    (b"\t \t", 22),
    (b"#", 22),
    (b"# A", 22),
    (b" #", 22),
    (b" # A", 22),
    (b"$(A)", 22),
    (b"(A)", 22),
    (b"\"A\"", 22),
    (b"\rA", 22),
    (b" a", 22),
    (b" Aa", 22),
    (b" aA", 22),
    (b" _A", 22),
    (b" 1", 22),
    (b" 1A", 22),
    (b" A B", 22),
    (b" A A", 22),
    (b" A,B", 22),
    (b" A.B", 22),
    (b" g.Num", 22),
    (b" _._", 22),
    (b" A)", 22),
    (b" (A)", 22),
    (b" $", 22),
    (b" $A", 22),
    (b" $(", 22),
    (b" $()", 22),
    (b" $(A", 22),
    (b" $(A}", 22),
    (b" $( A)", 22),
    (b" $(A )", 22),
    (b" $ (A)", 22),
    (b" $(a)", 22),
    (b" $(g.Num)", 22),
    (b" $((A))", 22),
    (b" $(A))", 22),
    (b" $(A)B", 22),
    (b" $(A)x", 22),
    (b" $(A)_", 22),
    (b" $(A)0", 22),
    (b" $(A)$(A)", 22),
    (b" $(A) A", 22),
    (b" 'A'", 22),
    (b" L'A'", 22),
    (b" !A", 22),
    (b" A == 2", 22),
    (b" A=1", 22),
    (b" A-", 22),
    (b" A\r ", 22),
    (b" A\0", 22),
    (b" A\xe9", 22),
    (b" \xc4", 22),
    (b" A \x0b", 22),
]

# After the same words, `$(NAME)`: whether the name is set, in the old edition; in the new one it is 22 (R41).
MACROS = [
    (b" $(A)", True),
    (b"\t\t$(A)\t", True),
    (b" $(A)#c", True),
    (b" $(A) # c", True),
    (b" $(A) # B", True),
    (b" $(Z)", True),
    (b" $(" + LONGEST_MACRO + b") # c", True),
    (b" $(NOPE)", False),
    (b" $(" + LONGEST_MACRO + b"X)", False),
    (b" \t $(S) \t ", True),
    (b"\t$(A)#", True),
    (b" $(A)# $(a)", True),
    (b" $(TRUE)", True),
    (b" $(E)", True),
    (b" $(B)", False),
    (b" $(AND)", False),
    (b" $(L)", False),
    (b" $(X)", False),
    (b" $(A_)", False),
    (b" $(" + b"X" * 1000 + b")", False),
]

# After !else and !endif: whether it may stand there.
NOTHING = [
    (b"", True),
    (b" ", True),
    (b"\t", True),
    (b" \t \t", True),
    (b"#", True),
    (b"#c", True),  # R22
    (b" # c", True),
    (b"\t#!if @", True),
    (b"# \xff\0\r x", True),
    (b" x", False),
    (b" 1", False),
    (b"1", False),
    (b"_", False),
    (b"(", False),
    (b" (1)", False),
    (b"!", False),
    (b" !", False),
    (b"\r ", False),
    (b" \r ", False),
    (b"\0", False),
    (b" \0", False),
    (b"\xe9", False),
    (b"\x0b", False),
    (b"\xa0", False),
    (b";", False),
    (b" ; c", False),
    (b" // c", False),
    (b"'#'", False),
    (b" \"#\"", False),
    (b" x # c", False),
    (b"$(A)", False),
    (b" if 1", False),
]


def within(wanted, front, back):
    """An answer with marks around it, or a refusal without a place in the line after the marks in front."""
    if isinstance(wanted, Differ):
        return mapped(lambda each: within(each, front, back), wanted)
    if isinstance(wanted, int):
        return wanted, len(front) + 1
    mark, count = wanted
    return "%s%d%s" % (front, mark, back), count


# Where an expression is read: the lines before, with their marks, its own line up to the word's end, and the lines after, with their marks.
READ = [
    (b"", "", b"!if", b"\n!endif", "5"),
    (b"x\n", "1", b"\t!if", b"\n!endif\n", "5"),
    (b"!if 0\n", "3", b"!elseif", b"\n!endif\n", "5"),
    (b"!if 0\n!elseif 0\n", "33", b"!elif", b"\n!endif\n", "5"),
    (b"!if 1\n", "4", b"!if", b"\n!endif\n!endif\n", "55"),
]


def unread(text):
    """Files in which the text is not read."""
    return [
        (b"!if 1\n!elseif" + text + b"\n!endif\n", ("425", 0)),
        (b"!if 0\n!elif 1\n!elif" + text + b"\n!endif\n", ("3425", 0)),
        (b"!if 0\n!if" + text + b"\n!elif" + text + b"\n!endif\n!endif\n", ("32225", 0)),
    ]


# Mark and count of !ifdef and of !ifndef, by whether the name is set.
OUTCOMES = {True: ((4, 0), (3, 0)), False: ((3, 0), (4, 0))}


def names():
    """What is after !ifdef and !ifndef, with what it is after either."""
    for text, is_set in NAMES:
        yes, no = (is_set, is_set) if is_set == MALFORMED_TEXT else OUTCOMES[is_set]
        yield text, yes, no
    for text, is_set in MACROS:
        yes, no = OUTCOMES[is_set]
        yield text, Differ(yes, MALFORMED_TEXT), Differ(no, MALFORMED_TEXT)


FILES = []
for text, wanted in CONDITIONS + bars.CONDITIONS:
    FILES += [(before + word + text + after, within(wanted, front, back)) for before, front, word, after, back in READ]
    FILES += unread(text)
for first, second, number in REFUSED + bars.REFUSED_CONDITIONS:
    FILES += [
        (before + word + first + second + after, (number, len(front) + 1, len(word + first))) for before, front, word, after, _ in READ
    ]
    FILES += unread(first + second)
for text, yes, no in names():
    FILES += [
        (b"!ifdef" + text + b"\n!endif", within(yes, "", "5")),
        (b"!ifndef" + text + b"\n!endif", within(no, "", "5")),
        (b"x\n !ifdef" + text + b"\r\n!endif\r\n", within(yes, "1", "5")),
        (b"!if 1\n!ifndef" + text + b"\n!endif\n!endif", within(no, "4", "55")),
        # not read
        (b"!if 0\n!ifdef" + text + b"\n!endif\n!endif\n", ("3225", 0)),
        (b"!if 1\n!else\n!ifndef" + text + b"\n!endif\n!endif\n", ("43225", 0)),
    ]
for text, good in NOTHING:
    FILES += [
        (b"!if 1\n!else" + text + b"\n!endif", within((3, 0) if good else 22, "4", "5")),
        (b"!if 0\n!else" + text + b"\n!endif", within((4, 0) if good else 22, "3", "5")),
        (b"!if 1\n!elif 0\n!else" + text + b"\n!endif", within((3, 0) if good else 22, "42", "5")),
        (b"!if 1\n!endif" + text + b"\nx", within((5, 0) if good else 22, "4", "1")),
        (b"!if 0\n!endif" + text + b"\nx", within((5, 0) if good else 22, "3", "1")),
        # not read
        (b"!if 0\n!if 1\n!else" + text + b"\n!endif" + text + b"\n!endif\n", ("32225", 0)),
    ]

VECTORS = [(file, TABLE, wanted) for file, wanted in FILES]
