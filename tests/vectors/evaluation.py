"""Gathers the vectors of evaluation: an expression, a table, and the answer, which is the refusal's number (0: none) and offset and the six
numbers: kind, number, count of operators, and a string's array (0 the expression, 1 the table), start and length; or a Differ of two.
"""
import bare_words
import bars
import offsets
import operators
import precedence
import values
from editions import BAD_TOKEN, Differ, mapped
from settings import TABLE, numbers
from tables import NUMBER, STRING, WIDE, numbered, record

WEEK = b"$(WEEK) GE 48 AND $(WEEK) LE 5"
MALFORMED = TABLE[:-1]

# With another table: an expression, the table, a number and a count.
OTHER_TABLES = [
    # the window over the new year that is never true
    (WEEK, numbers(WEEK=50), 0, 3),
    (WEEK, numbers(WEEK=3), 0, 2),
    (WEEK, b"", 0, 2),
    (b"$(WEEK) GE 48 OR $(WEEK) LE 5", numbers(WEEK=50), 1, 2),
    (b"$(WEEK) GE 48 OR $(WEEK) LE 5", numbers(WEEK=3), 1, 3),
    (b"$(FOO) == 2", numbers(FOO=2), 1, 1),
    (b"$(FOO) == 2", numbers(FOO=3), 0, 1),
    (b"1 + 1", b"", 2, 1),
    (b"$(A)", b"", 0, 0),
    (b"$(A) < $(B)", record(b"A", STRING, b"zero") + record(b"B", STRING, b"three"), 0, 1),
    (b"$(A) < $(B)", record(b"A", STRING, b"thirty") + record(b"B", STRING, b"thirty1"), 1, 1),
    (b"$(A)", record(b"A.A", NUMBER, 1), 0, 0),
    (b"$(Y) == $(Z)", record(b"Y", STRING, b"y" * 56) + record(b"Z", STRING, b"y" * 55), 0, 1),
    # 512 records, the first and the last
    (b"$(N0000) + $(N0511)", numbered(512), 511, 1),
]

# An expression in two parts, the table and the number: the refusal is where the second part starts. It depends on the table.
REFUSED = [
    (b"", b"$(Foo)", numbers(FOO=3), 3),
    (b"", b"Foo.Bar", numbers(FOO=3), 9),
    (b"", b"g.Num", b"", 9),
    (b"", b"A.A", numbers(A=1), 9),
    (b"a.a + ", b"b.b", record(b"a.a", NUMBER, 1), 9),
    (b"", b"a.a + b.b", record(b"b.b", NUMBER, 1), 9),
    (b"$(A) ", b"< $(B)", record(b"A", WIDE, b"thirty") + record(b"B", STRING, b"thirty1"), 10),
    (b"1 + $(A) ", b"* 2 == $(B)", record(b"A", STRING, b"a"), 10),
    (b"1 + $(A) * 2 ", b"== $(B)", record(b"B", STRING, b"b"), 10),
    (b"$(A) ", b"? $(B) : 'b'", record(b"B", NUMBER, 1), 10),
    (b"$(A) ", b"- 1 + 1 / $(B)", b"", 11),
    (b"$(A) - 1 + 1 ", b"/ $(B)", numbers(A=1), 12),
    (b"$(A) ? 1 ", b"/ 0 : 5 - 7", numbers(A=1), 12),
    (b"$(A) ? 1 / 0 : 5 ", b"- 7", numbers(A=0), 11),
    # a malformed table is refused whatever the expression is, and before all else; it has no place
    (b"", b"1", numbered(513), 1),
    (b"", b"1", b"\0", 1),
    (b"", b"1", record(b"A", STRING, b"y" * 56, length=57), 1),
    *[
        (b"", text, MALFORMED, 1)
        for text in (
            b"1", b"$(A)", b"", b" ", b"1" * 1025, b"@", b"1 + @", b"18446744073709551616", b"1 + 18446744073709551616", b"-" * 201,
            b"(" * 17, b"1 2", b"1 +", b"1 | 2", b"g.None", b"1 + g.None", b"1 + 'a'", b"5 - 7", b"1 / 0", b"'a' == a",
        )
    ],
]


def answer(kind, number, count, memory=0, at=0, length=0):
    return 0, 0, (kind, number, count, memory, at, length)


def refusal(number, offset):
    return number, offset, (0,) * 6


WITH_NUMBERS = values.NUMBERS + precedence.VECTORS + operators.NUMBERS + bars.NUMBERS + bare_words.NUMBERS
VECTORS = (
    [(expression, TABLE, answer(NUMBER, *rest)) for expression, *rest in WITH_NUMBERS]
    + [(expression, TABLE, answer(kind, 0, *rest)) for expression, kind, *rest in values.STRINGS]
    + [
        (expression, TABLE, Differ(answer(NUMBER, *rest), refusal(BAD_TOKEN, word)))
        for expression, *rest, word in bare_words.ACCEPTED_IN_OLD
    ]
    + [(expression, TABLE, mapped(lambda each: refusal(*each), wanted)) for expression, wanted in offsets.EXPRESSIONS]
    + [(expression, TABLE, refusal(*rest)) for expression, *rest in operators.REFUSED + bars.BY_THEMSELVES]
    + [(expression, table, answer(NUMBER, *rest)) for expression, table, *rest in OTHER_TABLES]
    + [(front + back, table, refusal(number, len(front))) for front, back, table, number in REFUSED]
)
# Without a table the answer is the same where nothing is named.
VECTORS += [
    (expression, b"", wanted)
    for expression, table, wanted in VECTORS
    if table is TABLE and b"$" not in expression and b"." not in expression
]
