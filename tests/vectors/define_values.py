"""What a macro has after its DEFINE line (order 6 of document 02): a number, a string or a wide string, of which no byte may be lost, added
or left from before. Worked out by hand, under the table of settings.py.

In NUMBERS, STRINGS and WIDES the texts of a row have the same value, and those of two rows have not; a text with operators is a pair, with
their count. In FILES a file has `|` for the LF between its lines, and its answer is the marks as digits and the count of operators, or the
refusal's number, line and offset.
"""
from settings import LONGEST_MACRO, TABLE

Y55 = b"y" * 55

NUMBERS = [
    [b"0", b"FALSE", b"0x0", b"(0)", b"$(Z)", b"$(NOPE)", (b"-0", 1), (b"1 - 1", 1), (b"'a' == 'b'", 1)],
    [b"1", b"TRUE", b"true", (b"!0", 1), (b"$(A) - 1", 1), (b"'a' < 'b'", 1), (b"L'' == L''", 1)],
    [b"2", b"$(A)", (b"1 + 1", 1), (b"1 << 1", 1), (b"g.Num - 5", 1), (b"0 ? 1 : 2", 1)],
    [b"64", b"$(%s)" % LONGEST_MACRO, (b"1 << 6", 1)],
    [b"256", b"0x100", (b"$(A) << 7", 1), (b"255 + 1", 1)],
    [b"4294967296", b"0x100000000", (b"65536 * 65536", 1)],
    [b"72623859790382856", b"0x0102030405060708", (b"0x01020304 << 32 ^ 0x05060708", 2)],
    [b"9223372036854775808", b"0x8000000000000000", (b"1 << 63", 1)],
    [b"18446744073709551615", b"$(M)", b"0xFFFFFFFFFFFFFFFF", (b"~0", 1), (b"$(M) + $(Z)", 1)],
]

STRINGS = [
    [b"''", b'""', b"$(E)", (b"1 ? '' : 'a'", 1)],
    [b"'a'", b'"a"', (b"1 ? 'a' : 'b'", 1), (b"0 ? $(S) : 'a'", 1)],
    [b"'two'", b"$(S)", b"(('two'))", (b"$(A) == 2 ? $(S) : 'three'", 2)],
    [b"'pcd'", b"a.Str"],
    [b"'1'", b'"1"'],
    [b"' '", b'" " # c'],
    [b"'\t x \t'", b'"\t x \t"'],
    # quotes, and what is a comment outside them
    [b"'#'", b'"#"', b"'#' # '"],
    [b"'a#b' # c", b'"a#b"#"', (b"1 ? 'a#b' : '#'", 1)],
    [b"'\"'", b"'\"' # \""],
    [b'"\'"', b'"\'" # \''],
    [b"'L\"a\"'", (b"1 ? 'L\"a\"' : ''", 1)],
    # any bytes: zeros, those from 0x80 on, and of the table CR and LF
    [b"'\0'", b'"\0"'],
    [b"'a\0\0'", b'"a\0\0"', b"$(T)"],
    [b"'\x01\x7f\x80\xa0\xc3\xa9\xfe\xff'", b'"\x01\x7f\x80\xa0\xc3\xa9\xfe\xff"'],
    [b"$(R)", (b"1 ? $(R) : ''", 1)],
    # what would be something else outside quotes
    [b"'= 1'", b'"= 1"'],
    [b"'DEFINE A = 1'", b'"DEFINE A = 1"'],
    [b"'!endif'", b'"!endif"'],
    [b"'$(A)'", b'"$(A)"'],
    # as long as a string can be
    [b"'%s'" % Y55, b'"%s"' % Y55],
    [b"'%sy'" % Y55, b'"%sy"' % Y55, b"$(Y)"],
    [b"'%sz'" % Y55, b'"%sz"' % Y55],
    [b"'z%s'" % Y55, b'"z%s"' % Y55],
]

WIDES = [
    [b"L''", b'L""', b"$(F)"],
    [b"L'a'", b'L"a"', (b"1 ? L'a' : L'b'", 1)],
    [b"L'w'", b"g.Wide"],
    [b"L'wide'", b"$(W)", (b"$(A) ? $(W) : $(F)", 1)],
    [b"L'a\0\xff#'", b'L"a\0\xff#" # c'],
    [b"L'%s'" % Y55, b'L"%s"' % Y55],
    [b"L'%sy'" % Y55, b'L"%sy"' % Y55],
]

FILES = [
    # macros with values of their own
    (b"DEFINE B = 1|DEFINE C = 'x'|DEFINE D = L'x'|!if $(B) == 1 AND $(C) == 'x' AND $(D) == L'x'|!endif", ("66645", 5)),
    (b"DEFINE B = 1|DEFINE C = 2|!if $(B) == 2|!elif $(C) == 2|!endif", ("66345", 2)),
    # a later line overrides: a shorter string, a longer one, another kind
    (b"DEFINE B = 'abcdef'|DEFINE B = 'ab'|!if $(B) == 'ab'|!endif", ("6645", 1)),
    (b"DEFINE B = 'ab'|DEFINE B = 'abcdef'|!if $(B) == 'abcdef'|!endif", ("6645", 1)),
    (b"DEFINE B = 'ab'|DEFINE B = ''|!if $(B) == ''|!endif", ("6645", 1)),
    (b"DEFINE B = ''|DEFINE B = 'ab'|!if $(B) == 'ab'|!endif", ("6645", 1)),
    (b"DEFINE B = $(Y)|DEFINE B = 1|!if $(B)|!endif", ("6645", 0)),
    (b"DEFINE B = $(M)|DEFINE B = 1|!if $(B)|!endif", ("6645", 0)),
    (b"DEFINE B = $(M)|DEFINE B = ''|!if $(B) == ''|!endif", ("6645", 1)),
    (b"DEFINE B = $(M)|DEFINE B = $(Y)|!if $(B) == $(Y)|!endif", ("6645", 1)),
    (b"DEFINE B = 'x'|DEFINE B = L'x'|!if $(B) == L'x'|!endif", ("6645", 1)),
    (b"DEFINE B = L'x'|DEFINE B = 'x'|!if $(B) == 'x'|!endif", ("6645", 1)),
    (b"DEFINE B = 1|DEFINE B = 'x'|DEFINE B = L'x'|DEFINE B = 2|!if $(B) == 2|!endif", ("666645", 1)),
    (b"DEFINE B = 1|!if $(B)|!endif|DEFINE B = 'x'|!if $(B) == 'x'|!endif|DEFINE B = 0|!if $(B)|!endif", ("645645635", 1)),
    # no number of a string, and no string of a number
    (b"DEFINE B = '1'|!if $(B)|!endif", (13, 2)),
    (b"DEFINE B = ''|!if $(B)|!endif", (13, 2)),
    (b"DEFINE B = ''|!if $(B) == 0|!endif", (10, 2, 9)),
    (b"DEFINE B = 'TRUE'|!if $(B) == TRUE|!endif", (10, 2, 9)),
    (b"DEFINE B = 1|!if $(B) == '1'|!endif", (10, 2, 9)),
    (b"DEFINE B = 'x'|!if $(B) == L'x'|!endif", (10, 2, 9)),
    (b"DEFINE B = L'x'|!if $(B) == 'x'|!endif", (10, 2, 9)),
    # a string's text is no expression, and a value is no text
    (b"DEFINE B = '1 + 1'|!if $(B) == '1 + 1'|!endif", ("645", 1)),
    (b"DEFINE B = '$(A)'|!if $(B) == '2'|!endif", ("635", 1)),
    (b"DEFINE B = '$(A)'|!if $(B) == $(A)|!endif", (10, 2, 9)),
    (b"DEFINE B = 1 + 1|!if $(B) * 3 == 6|!endif", ("645", 3)),
    (b"DEFINE B = 1 + 1|DEFINE C = $(B) * 3|!if $(C) == 6|!endif", ("6645", 3)),
    # 13 is for conditions
    (b"DEFINE B = 2", ("6", 0)),
    (b"DEFINE B = 'x'", ("6", 0)),
    (b"DEFINE B = L''", ("6", 0)),
    (b"DEFINE B = 2|!if $(B)|!endif", (13, 2)),
    # macros in plain lines stay as they are
    (b"DEFINE B = 0|$(B)|!include $(B)|!error $(B)", ("6111", 0)),
]


def compared(first, second):
    """A file that sets macros to both texts, and to one of these macros, and compares them; and how many operators the texts have."""
    (left, some), (right, more) = (each if isinstance(each, tuple) else (each, 0) for each in (first, second))
    return b"DEFINE B = %s\nDEFINE C = %s\nDEFINE D = $(B)\n!if $(B) == $(C) AND $(D) == $(C)\n!endif" % (left, right), some + more


ANSWERED = [(file.replace(b"|", b"\n"), wanted) for file, wanted in FILES]
for rows in (NUMBERS, STRINGS, WIDES):
    for first, row in enumerate(rows):
        for file, count in (compared(left, right) for left in row for right in row):
            ANSWERED.append((file, ("66645", count + 3)))
        for file, count in (compared(row[0], other[0]) for second, other in enumerate(rows) if first != second):
            ANSWERED.append((file, ("66635", count + 2)))
# Two kinds cannot be compared.
for rows, others in [(NUMBERS, STRINGS), (STRINGS, WIDES), (WIDES, NUMBERS), (STRINGS, NUMBERS), (WIDES, STRINGS), (NUMBERS, WIDES)]:
    for row, other in zip(rows, others):
        file, _ = compared(row[0], other[0])
        ANSWERED.append((file, (10, 4, len(b"!if $(B) "))))
VECTORS = [(file, TABLE, wanted) for file, wanted in ANSWERED]
