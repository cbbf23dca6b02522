"""The table under which the vectors of evaluation and of fields stand, if they name no other, and where its strings are."""
from tables import NUMBER, STRING, WIDE, record

LONGEST_MACRO = b"X" * 64
LONGEST_PCD = b"a." + b"x" * 62

# In the order that a table needs.
RECORDS = [
    (b"A", NUMBER, 2),
    (b"E", STRING, b""),
    (b"F", WIDE, b""),
    (b"M", NUMBER, 2**64 - 1),
    (b"R", STRING, b"\r\n\"'\0"),
    (b"S", STRING, b"two"),
    (b"T", STRING, b"a\0\0"),
    (b"TRUE", NUMBER, 0),
    (b"W", WIDE, b"wide"),
    (LONGEST_MACRO, NUMBER, 64),
    (b"Y", STRING, b"y" * 56),
    (b"Z", NUMBER, 0),
    (b"_._", NUMBER, 3),
    (b"a.Str", STRING, b"pcd"),
    (LONGEST_PCD, NUMBER, 65),
    (b"g.Num", NUMBER, 7),
    (b"g.Wide", WIDE, b"w"),
]
TABLE = b"".join(record(*each) for each in RECORDS)


def start(name):
    """Where the string under a name starts."""
    return 128 * [each[0] for each in RECORDS].index(name) + 72


def numbers(**values):
    """A table of numbers under macro names."""
    return b"".join(record(name.encode(), NUMBER, values[name]) for name in sorted(values))
