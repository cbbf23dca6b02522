"""Data fields, worked out by hand from document 01 (Field bytes and Refusal numbers).

VECTORS gathers them: an expression, a table, a datum code, the buffer's length, and the field's bytes or a refusal's number and offset, or
a Differ of two.
"""
import bare_words
import bars
import offsets
from editions import BAD_TOKEN, Differ
from settings import TABLE

VOID, BOOLEAN, UINT8, UINT16, UINT32, UINT64 = range(6)
MALFORMED = TABLE[:-1]

# The field of an expression in a buffer that has just the room for it. Each is tried with more room and with less, too.
FIELDS = [
    # numbers, little endian
    (b"0", BOOLEAN, b"\0"),
    (b"1", BOOLEAN, b"\1"),
    (b"FALSE", BOOLEAN, b"\0"),
    (b"TRUE", BOOLEAN, b"\1"),
    (b"1 + 1 == 2", BOOLEAN, b"\1"),  # R19
    (b"$(NOPE)", BOOLEAN, b"\0"),
    (b"0", UINT8, b"\0"),
    (b"1", UINT8, b"\1"),
    (b"128", UINT8, b"\x80"),
    (b"255", UINT8, b"\xff"),
    (b"0", UINT16, b"\0\0"),
    (b"1", UINT16, b"\1\0"),
    (b"0x1234", UINT16, b"\x34\x12"),
    (b"255", UINT16, b"\xff\0"),
    (b"256", UINT16, b"\0\1"),
    (b"65535", UINT16, b"\xff\xff"),
    (b"0", UINT32, b"\0\0\0\0"),
    (b"0x12345678", UINT32, b"\x78\x56\x34\x12"),
    (b"65536", UINT32, b"\0\0\1\0"),
    (b"4294967295", UINT32, b"\xff\xff\xff\xff"),
    (b"0", UINT64, b"\0" * 8),
    (b"0x0102030405060708", UINT64, b"\x08\x07\x06\x05\x04\x03\x02\x01"),
    (b"4294967296", UINT64, b"\0\0\0\0\1\0\0\0"),
    (b"1 << 63", UINT64, b"\0" * 7 + b"\x80"),
    (b"18446744073709551615", UINT64, b"\xff" * 8),
    (b"$(M)", UINT64, b"\xff" * 8),
    (b"~0", UINT64, b"\xff" * 8),
    (b"g.Num * 3", UINT8, b"\x15"),
    # strings and one zero byte
    (b"''", VOID, b"\0"),
    (b"'a'", VOID, b"a\0"),
    (b'"ab"', VOID, b"ab\0"),
    (b"'\xff\x00\t'", VOID, b"\xff\0\t\0"),
    (b"1 ? 'ab' : 'cde'", VOID, b"ab\0"),
    (b"0 ? 'ab' : 'cde'", VOID, b"cde\0"),
    (b"$(S)", VOID, b"two\0"),
    (b"$(E)", VOID, b"\0"),
    (b"$(R)", VOID, b"\r\n\"'\0\0"),
    (b"$(T)", VOID, b"a\0\0\0"),
    (b"$(Y)", VOID, b"y" * 56 + b"\0"),
    (b"a.Str", VOID, b"pcd\0"),
    (b"'" + b"x" * 1022 + b"'", VOID, b"x" * 1022 + b"\0"),
    # wide ones, two bytes each, and two zero bytes
    (b"L''", VOID, b"\0\0"),
    (b"L'a'", VOID, b"a\0\0\0"),
    (b'L"ab"', VOID, b"a\0b\0\0\0"),
    (b"L'\xff\x00'", VOID, b"\xff\0\0\0\0\0"),
    (b"$(F)", VOID, b"\0\0"),
    (b"$(W)", VOID, b"w\0i\0d\0e\0\0\0"),
    (b"g.Wide", VOID, b"w\0\0\0"),
    (b"L'" + b"x" * 1021 + b"'", VOID, b"x\0" * 1021 + b"\0\0"),
]

# Refusals without a place: an expression, a table, a datum code, the buffer's length and the number.
REFUSED = [
    # 25: one more than the largest, and far more
    (b"2", TABLE, BOOLEAN, 8, 25),
    (b"255", TABLE, BOOLEAN, 8, 25),
    (b"256", TABLE, BOOLEAN, 8, 25),
    (b"$(M)", TABLE, BOOLEAN, 8, 25),
    (b"256", TABLE, UINT8, 8, 25),
    (b"65536", TABLE, UINT8, 8, 25),
    (b"18446744073709551615", TABLE, UINT8, 8, 25),
    (b"65536", TABLE, UINT16, 8, 25),
    (b"4294967296", TABLE, UINT16, 8, 25),
    (b"4294967296", TABLE, UINT32, 8, 25),
    (b"1 << 63", TABLE, UINT32, 8, 25),
    # 24
    (b"0", TABLE, VOID, 8, 24),
    (b"$(NOPE)", TABLE, VOID, 8, 24),
    (b"18446744073709551615", TABLE, VOID, 8, 24),  # R20
    *[(text, TABLE, datum, 8, 24) for text in (b"''", b"'1'", b"L'1'", b"$(S)", b"g.Wide") for datum in range(1, 6)],  # R20
    # 23, whatever the kind
    *[(text, TABLE, datum, 8, 23) for text in (b"0", b"'a'", b"L''") for datum in (6, 7, 8, 16, 127, 128, 254, 255)],
    # 1 and 2 before 23 and all that follow
    (b"1", MALFORMED, 6, 0, 1),
    (b"1", MALFORMED, UINT8, 8, 1),
    (b"1 + @", MALFORMED, UINT8, 8, 1),
    (b" " * 1025, TABLE, 6, 0, 2),
    # 23 before 24, 25 and 26
    (b"'a'", TABLE, 6, 0, 23),
    (b"18446744073709551615", TABLE, 6, 0, 23),
    # 24 before 26
    (b"5", TABLE, VOID, 0, 24),
    (b"'a'", TABLE, UINT8, 0, 24),
    (b"L'a'", TABLE, UINT64, 7, 24),
    # 25 before 26
    (b"2", TABLE, BOOLEAN, 0, 25),
    (b"256", TABLE, UINT8, 0, 25),
    (b"65536", TABLE, UINT16, 1, 25),
    (b"4294967296", TABLE, UINT32, 3, 25),
    # 26 with less than half, too
    (b"'abcdef'", TABLE, VOID, 1, 26),
    (b"L'abc'", TABLE, VOID, 4, 26),
    (b"1", TABLE, UINT64, 4, 26),
    (b"0", TABLE, UINT64, 1, 26),
]

# The expression's own, whatever the datum and the room: an expression in two parts, a datum code, the buffer's length and the number; the
# refusal is where the second part starts.
OWN = [
    # above 2^64 - 1 there is no number
    (b"", b"18446744073709551616", UINT64, 8, 4),
    (b"18446744073709551615 ", b"+ 1", UINT64, 8, 11),
    # 3 to 12 before 23 and all that follow
    (b"", b"@", 255, 0, 3),
    (b"1 + ", b"@", 255, 0, 3),
    (b"1 + ", b"18446744073709551616", 6, 0, 4),
    (b"-" * 200, b"-", 6, 0, 5),
    (b"(" * 16, b"(", 6, 0, 6),
    (b"", b"", 6, 0, 7),
    (b"1 + ", b"", 6, 0, 7),
    (b"1 ", b"| 2", 6, 0, 8),
    (b"1 + ", b"g.None", 6, 0, 9),
    (b"1 ", b"== 'a'", 6, 0, 10),
    (b"5 ", b"- 7", 6, 0, 11),
    (b"1 ", b"/ 0", 255, 0, 12),
    (b"1 ", b"/ 0", VOID, 0, 12),
    (b"1 ", b"/ 0", UINT8, 0, 12),
    (b"'a' ", b"+ 'b'", VOID, 8, 10),
]

VECTORS = [(*given, (number, 0)) for *given, number in REFUSED] + offsets.FIELDS
VECTORS += [(front + back, TABLE, code, room, (number, len(front))) for front, back, code, room, number in OWN]
VECTORS += [(text, TABLE, code, room, tuple(refusal)) for text, *refusal in bars.BY_THEMSELVES for code, room in ((UINT8, 8), (6, 0))]
for text, code, wanted in FIELDS:
    VECTORS += [(text, TABLE, code, len(wanted) + more, wanted) for more in (0, 1, 2, 9)]
    VECTORS += [(text, TABLE, code, room, (26, 0)) for room in sorted({0, len(wanted) // 2, len(wanted) - 1})]

# Bare words: the number as a field, and what comes after the expression's own refusals.
for text, number, _, word in bare_words.ACCEPTED_IN_OLD:
    in_old = [
        (BOOLEAN, 1, bytes([number]) if number <= 1 else (25, 0)),
        (UINT8, 9, bytes([number])),
        (UINT64, 8, number.to_bytes(8, "little")),
        (UINT64, 7, (26, 0)),
        (VOID, 8, (24, 0)),
        (6, 0, (23, 0)),
    ]
    VECTORS += [(text, TABLE, code, room, Differ(old, (BAD_TOKEN, word))) for code, room, old in in_old]
