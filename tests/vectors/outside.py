"""Where 8 and 9 are (order 3 of document 02): the leftmost bar outside parentheses, and the leftmost PCD that the table lacks. The text
decides what is leftmost, not the grouping. Under the table of settings.py.

A vector is an expression in two parts and the number: the refusal is where the second part starts.
"""
from settings import LONGEST_PCD

BARS = [
    (b"1", b"|2", 8),
    (b"1", b"||2", 8),
    (b"\t1\t", b"|\t2", 8),
    (b" " * 1021 + b"1", b"|2", 8),
    # the leftmost of several
    (b"1 ", b"| 2 | 3", 8),
    (b"1 ", b"|| 2 || 3", 8),
    (b"1 ", b"|| 2 | 3", 8),
    (b"1 ", b"| 2 || 3", 8),
    (b"1 OR 2 ", b"| 3 || 4", 8),
    (b"1 + 2 * 3 ", b"| 4 + 5 | 6", 8),
    (b"1", b"|1" * 99, 8),
    # those inside parentheses are passed over
    (b"(1 | 2) ", b"| 3", 8),
    (b"(1 | 2) ", b"| 3 || 4", 8),
    (b"(1 || 2) + 3 ", b"|| 4 | 5", 8),
    (b"((1) | (2)) ", b"| (3 | 4)", 8),
    (b"(1 | 2)", b"|(3 | 4)", 8),
    (b"(1 | 2) * (3 | 4) ", b"| 5", 8),
    (b"((1 | 2) | 3) ", b"| 4", 8),
    (b"(" * 16 + b"1|2" + b")" * 16, b"|3", 8),
    # in any part of `?:`, and in what is skipped
    (b"1 ", b"| 2 ? 3 | 4 : 5 | 6", 8),
    (b"1 ? 2 ", b"| 3 : 4 | 5", 8),
    (b"1 ? (2 | 3) : 4 ", b"| 5", 8),
    (b"1 ? 2 : 3 ", b"|| 4", 8),
    (b"0 AND 1 ", b"| 2", 8),
    (b"1 OR 0 ", b"|| 1", 8),
    # no bars: words, strings, comments
    (b"'|' == '||' AND 1 ", b"| 2", 8),
    (b"1 or 0 OR 1 ", b"| 2 # | 3", 8),
]

PCDS = [
    (b"\t\t", b"g.None", 9),
    (b" " * 1018, b"g.None", 9),
    # the leftmost of several, whatever their names are
    (b"", b"g.None + h.None", 9),
    (b"", b"z.z + a.a", 9),
    (b"", b"g.None + h.None * i.None", 9),
    (b"g.Num - ", b"g.None - g.None", 9),
    (b"1 + (2 * (", b"g.None)) + h.None", 9),
    # those in the table, and macros, are passed over
    (b"g.Num + ", b"g.None + h.None", 9),
    (b"_._ + ", b"g.num + g.Num", 9),
    (b"(g.Num) * (", b"h.None)", 9),
    (b"g.Num == ", b"G.Num", 9),
    (b"$(NOPE) + ", b"g.None", 9),
    (b"$(A) + $(S) + ", b"g.None", 9),
    (b"0 * ", LONGEST_PCD + b"x", 9),
    (LONGEST_PCD + b" * ", LONGEST_PCD[:-1], 9),
    (b"'g.None' == ", b"g.None", 9),
    (b"1 + ", b"g.None # h.None", 9),
    # in skipped operands, and in any part of `?:`
    (b"0 AND ", b"g.None", 9),
    (b"0 AND ", b"g.None OR h.None", 9),
    (b"1 OR ", b"g.None + h.None", 9),
    (b"(1 || ", b"g.None)", 9),
    (b"", b"g.None ? h.None : i.None", 9),
    (b"1 ? ", b"g.None : h.None", 9),
    (b"0 ? ", b"g.None : h.None", 9),
    (b"0 ? g.Num : ", b"g.None", 9),
    (b"1 ? 2 : ", b"g.None ? h.None : 3", 9),
    # words before a dot
    (b"1 AND ", b"AND.x", 9),
    (b"TRUE == ", b"TRUE.x", 9),
    (b"g.Num-", b"g.None", 9),
    (b"-" * 199, b"g.None", 9),
]

VECTORS = BARS + PCDS
