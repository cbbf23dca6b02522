"""Tables of settings and lookups in them, worked out by hand from document 01."""

NUMBER, STRING, WIDE, MISSING = 0, 1, 2, 255


def record(name, kind, content, length=None, zeros=b"\0" * 6, padding=None):
    """One record. A number's content is its value."""
    if kind == NUMBER and isinstance(content, int):
        content = content.to_bytes(8, "little")
    length = len(content) if length is None else length
    rest = b"\0" * (56 - len(content)) if padding is None else padding
    made = name + b"\0" * (64 - len(name)) + bytes([kind, length]) + zeros + content + rest
    assert len(made) == 128, len(made)
    return made


def numbered(count):
    return b"".join(record(b"N%04d" % i, NUMBER, i) for i in range(count))


A = record(b"A", NUMBER, 2)
B = record(b"B", STRING, b"two")
C = record(b"C", WIDE, b"")
P = record(b"gToken.PcdOne", NUMBER, 2**64 - 1)

# A table, and whether it is well formed.
TABLES = [
    (b"", True),
    (A, True),
    (A + B + C + P, True),
    (numbered(512), True),
    (numbered(513), False),
    # whole records
    (A[:127], False),
    (A + b"\0", False),
    (A + B[:64], False),
    (b"\0" * 128, False),
    # names ascend strictly, by their 64 bytes
    (A + A, False),
    (B + A, False),
    (A + record(b"A", NUMBER, 3), False),
    (record(b"A", NUMBER, 1) + record(b"A0", NUMBER, 1) + record(b"AA", NUMBER, 1) + record(b"A_", NUMBER, 1) + record(b"A_.b", NUMBER, 1), True),
    (record(b"AA", NUMBER, 1) + record(b"A0", NUMBER, 1), False),
    (record(b"Z", NUMBER, 1) + record(b"a.b", NUMBER, 1), True),
    (record(b"a.b", NUMBER, 1) + record(b"Z", NUMBER, 1), False),
    (A + C + B, False),
    (record(b"X" * 63 + b"A", NUMBER, 1) + record(b"X" * 63 + b"B", NUMBER, 1), True),
    (record(b"X" * 63 + b"B", NUMBER, 1) + record(b"X" * 63 + b"B", NUMBER, 1), False),
    # a macro name or a PCD name and nothing else
    (record(b"X" * 64, NUMBER, 1), True),
    (record(b"A_9", NUMBER, 1), True),
    (record(b"_A", NUMBER, 1), False),
    (record(b"9A", NUMBER, 1), False),
    (record(b"Ab", NUMBER, 1), False),
    (record(b"a", NUMBER, 1), False),
    (record(b"", NUMBER, 1), False),
    (record(b"A B", NUMBER, 1), False),
    (record(b"A ", NUMBER, 1), False),
    (record(b"a.b", NUMBER, 1), True),
    (record(b"_._", NUMBER, 1), True),
    (record(b"A.B", NUMBER, 1), True),
    (record(b"a.b.c", NUMBER, 1), False),
    (record(b"a.", NUMBER, 1), False),
    (record(b".b", NUMBER, 1), False),
    (record(b"a.1", NUMBER, 1), False),
    (record(b"1.a", NUMBER, 1), False),
    (record(b"a." + b"x" * 62, NUMBER, 1), True),
    (record(b"A\0B", NUMBER, 1), False),
    (record(b"$(A)", NUMBER, 1), False),
    (record(b"\xc4", NUMBER, 1), False),
    # the name's padding
    (b"A" + b"\0" * 62 + b"x" + A[64:], False),
    (b"A" + b"\0" * 62 + b"A" + A[64:], False),
    # kinds 0 to 2
    (record(b"A", 3, b"x"), False),
    (record(b"A", 255, b"x"), False),
    # lengths: a number 8, a string 0 to 56
    (record(b"A", NUMBER, 1, length=7), False),
    (record(b"A", NUMBER, 1, length=9), False),
    (record(b"A", NUMBER, 1, length=0), False),
    (record(b"A", STRING, b""), True),
    (record(b"A", STRING, b"x" * 56), True),
    (record(b"A", STRING, b"x" * 56, length=57), False),
    (record(b"A", STRING, b"x" * 56, length=255), False),
    (record(b"A", WIDE, b"x" * 56), True),
    (record(b"A", WIDE, b"x" * 56, length=57), False),
    (record(b"A", WIDE, b""), True),
    # bytes 66 to 71
    *[(record(b"A", NUMBER, 1, zeros=bytes(1 if i == k else 0 for i in range(6))), False) for k in range(6)],
    # the content's padding
    (record(b"A", NUMBER, 1, padding=b"\0" * 47 + b"\1"), False),
    (record(b"A", NUMBER, 1, padding=b"\1" + b"\0" * 47), False),
    (record(b"A", STRING, b"ab", length=1), False),
    (record(b"A", STRING, b"", padding=b"\0" * 55 + b"\1"), False),
    # a string may hold any byte, zeros and line ends too
    (record(b"A", STRING, b"a\0\0"), True),  # R34
    (record(b"A", STRING, b"\r\n\"'\0\xff"), True),
    (record(b"A", WIDE, b"\0" * 56), True),
    # one bad record among good ones
    (A + record(b"B", STRING, b"x" * 56, length=57) + C, False),
    (numbered(511) + record(b"O", 3, b""), False),
]

# the bytes next to the ranges of letters and digits are in no name
for beside in (b"@", b"[", b"`", b"{", b"/", b":"):
    TABLES += [(record(name, NUMBER, 1), False) for name in (b"A" + beside, beside + b"A", b"a" + beside + b".b", b"a." + beside + b"b")]

T = A + B + C + P
X64 = b"X" * 64
BIG = b"".join(sorted([record(X64, STRING, b"x" * 56), record(b"X" * 63, NUMBER, 63), record(b"a.b", WIDE, b"a\0\0"), record(b"AB", NUMBER, 256)]))
MANY = numbered(512)

# A well-formed table, a name, and what stands under it: a kind, the number or the string's start, and the string's length.
LOOKUPS = [
    (b"", b"A", (MISSING, 0, 0)),
    (T, b"A", (NUMBER, 2, 0)),
    (T, b"B", (STRING, 128 + 72, 3)),
    (T, b"C", (WIDE, 256 + 72, 0)),
    (T, b"gToken.PcdOne", (NUMBER, 2**64 - 1, 0)),
    (T, b"D", (MISSING, 0, 0)),
    (T, b"", (MISSING, 0, 0)),
    (T, b"\0", (MISSING, 0, 0)),
    (T, b"A\0", (MISSING, 0, 0)),  # R35
    (T, b"A" + b"\0" * 63, (MISSING, 0, 0)),
    (T, b"AA", (MISSING, 0, 0)),
    (T, b"a", (MISSING, 0, 0)),
    (T, b"gToken", (MISSING, 0, 0)),
    (T, b"gToken.PcdOn", (MISSING, 0, 0)),
    (T, b"gToken.PcdOneX", (MISSING, 0, 0)),
    (T, b"$(A)", (MISSING, 0, 0)),
    (BIG, X64, (STRING, BIG.index(X64) + 72, 56)),  # R35
    (BIG, b"X" * 63, (NUMBER, 63, 0)),
    (BIG, b"X" * 62, (MISSING, 0, 0)),
    (BIG, b"X" * 65, (MISSING, 0, 0)),  # R35
    (BIG, b"X" * 1000, (MISSING, 0, 0)),
    (BIG, X64 + b"\0", (MISSING, 0, 0)),
    (BIG, b"a.b", (WIDE, BIG.index(b"a.b\0") + 72, 3)),
    (BIG, b"AB", (NUMBER, 256, 0)),
    (MANY, b"N0000", (NUMBER, 0, 0)),
    (MANY, b"N0001", (NUMBER, 1, 0)),
    (MANY, b"N0256", (NUMBER, 256, 0)),
    (MANY, b"N0511", (NUMBER, 511, 0)),
    (MANY, b"N0512", (MISSING, 0, 0)),
    (record(b"A", NUMBER, 0x0102030405060708), b"A", (NUMBER, 0x0102030405060708, 0)),
]
