"""The column 'where' in the table of refusals: its words mean what these expressions show, in a call by itself, in a directive and in a
DEFINE line."""
import library
from manual import rows
from refusals import HEADING

NONE = "-"
BAR = 8
WORD, DEFINE = b"\t!elseif ", b" DEFINE A\t="
# Of each number that has a place: the words of its cell, and expressions in two parts, of which the second starts where the refusal is.
# Each place differs from those that other words would mean.
PLACED = {
    3: (
        "the first byte of the bad token",
        [(b"1 + ", b"@ + @"), (b"1", b".a"), (b"1 + ", b"a.1"), (b"1 == ", b"'a b"), (b"1 == ", b"L'a"), (b"1 + ", b"$(a)")],
    ),
    4: (
        "its first byte",
        [(b"1 + ", b"18446744073709551616"), (b"", b"18446744073709551616 + 99999999999999999999")],
    ),
    5: (
        "the first byte of what follows",
        [(b"-" * 200, b"0"), (b"-" * 200 + b" \t", b"'a"), (b"-" * 199 + b"1", b".a")],
    ),
    6: (
        "the first such `(`",
        [(b"(" * 16, b"((1"), (b"(1) + " + b"(" * 16, b"(1"), (b")" + b"(" * 17, b"(")],
    ),
    7: (
        "the first token that nothing after it can mend; else `#` or the end",
        [
            (b"1 ", b"2 3"),
            (b"", b"* 1"),
            (b"(1 ? 2", b") : 3"),
            (b"1 ? 2 : 3 ", b": 4"),
            (b"1 + ", b"# 2"),
            (b"1 +  ", b""),
            (b"(1 + 2", b""),
            (b"-" * 200, b""),
        ],
    ),
    8: (
        "the leftmost such bar",
        [(b"1 ", b"|| 2 | 3"), (b"(1 | 2) ", b"| 3 || 4"), (b"1 ? 2 ", b"| 3 : 4 | 5")],
    ),
    9: (
        "the leftmost such PCD",
        [(b"", b"b.b + a.a"), (b"0 AND (1 + ", b"b.b) * a.a")],
    ),
    10: (
        "the leftmost such operator with no such one inside",
        [
            (b"1 ", b"+ 'a'"),
            (b"'b' + ('a' ", b"+ 1)"),
            (b"('a' ", b"+ 1) == ('b' * 2)"),
            (b"!", b"~'a'"),
            (b"'a' ", b"? 1 : 2"),
            (b"'a' ? 'b' : ", b"NOT 'c'"),
            (b"0 ", b"AND 'a'"),
        ],
    ),
    11: (
        "the first such operator that is evaluated",
        [(b"(5 ", b"- 7) + 1 / 0"), (b"1 - ", b"-1"), (b"0 AND 5 - 7 OR 5 ", b"- 7"), (b"0 ? 5 - 8 : 5 ", b"- 7")],
    ),
    12: (
        "the first such operator that is evaluated",
        [(b"1 ", b"/ 0 + (5 - 7)"), (b"8 / (4 ", b"/ 0) / 0"), (b"-(1 ", b"/ 0)"), (b"0 ? 1 / 0 : 1 ", b"% 0")],
    ),
}


def by_itself(expression):
    """The refusal's number and offset."""
    return library.evaluate(expression, b"")[:2]


def in_directive(expression):
    """The refusal's number, line and offset, in line 2."""
    return library.select(b"!if 0\n" + WORD + expression + b"\r\n!endif\r\n", b"", 3)[:3]


def in_define(expression):
    """The same after a DEFINE."""
    return library.select(b"x\n" + DEFINE + expression + b"\r\n", b"", 2)[:3]


def checks():
    found = {int(row[0]): row[2] for row in rows("Refusals", *HEADING)}
    yield "where refusals are", found, {number: PLACED[number][0] if number in PLACED else NONE for number in found}
    for refusal, (_, examples) in PLACED.items():
        for front, back in examples:
            what = "where %d is in %s" % (refusal, (front + back).decode())
            yield what, by_itself(front + back), (refusal, len(front))
            # No directive has 8.
            if refusal != BAR:
                yield what + " after !elseif", in_directive(front + back), (refusal, 2, len(WORD + front))
            yield what + " after DEFINE", in_define(front + back), (refusal, 2, len(DEFINE + front))
