"""Bars in DEFINE lines (orders 1 and 6 of document 02): `|` and `||` need their parentheses, as in a data field; in directives they do not.
Worked out by hand.

A vector is a file, a table and the answer: the marks as digits and the count of operators, or the refusal's number, line and offset.
"""
import bars
from settings import TABLE

# A text that is 8 by itself is taken in parentheses, and then has the value that it has without them in a directive. Left out are texts at
# a limit, which one more pair would break, and those that end with a comment.
INSIDE = [(front + back, mark, count) for front, back, mark, count in bars.OUTSIDE if len(back) < 30 and b"#" not in back]
VECTORS = [
    (b"DEFINE V = (%s)\n!if $(V) == %d\n!endif" % (text, mark - 3), TABLE, ("645", count + 1)) for text, mark, count in INSIDE
]
VECTORS += [
    (b"DEFINE V = 1 | 2\n!if $(V) == 3\n!endif", b"", (8, 1, 13)),
    (b"DEFINE V = (1 | 2)\n!if $(V) == 3\n!endif", b"", ("645", 2)),
    (b"DEFINE V = 0 || 2", b"", (8, 1, 13)),
    (b"DEFINE V = (0 || 2)\n!if $(V)\n!endif", b"", ("645", 1)),
    (b"DEFINE V = 0 OR 2\n!if $(V)\n!endif", b"", ("645", 1)),
    (b"DEFINE V = (1) | (2)", b"", (8, 1, 15)),
    (b"DEFINE V = '|' == '||' # |\n!if $(V)\n!endif", b"", ("635", 1)),
    # the same text in a directive
    (b"!if 1 | 0\nDEFINE V = 1 | 0\n!endif", b"", (8, 2, 13)),
    (b"DEFINE V = 1\n!if $(V) | 0\nx\n!endif", b"", ("6415", 1)),
    (b"DEFINE V = (1 | 2)\n!if $(V) == 3 || @\n!endif", b"", (3, 2, 17)),
    # 8 before 9 to 12, 27 and 28
    (b"DEFINE V = 1 | g.None", b"", (8, 1, 13)),
    (b"DEFINE V = g.None | 1", b"", (8, 1, 18)),
    (b"DEFINE V = 1 | 'a'", b"", (8, 1, 13)),
    (b"DEFINE V = 5 - 7 | 1", b"", (8, 1, 17)),
    (b"DEFINE V = 1 / 0 || 1", b"", (8, 1, 17)),
    (b"DEFINE V = 1 | 1 ? '' : '" + b"y" * 57 + b"'", b"", (8, 1, 13)),
    # 22 and 3 to 7 before 8
    (b"DEFINE v = 1 | 2", b"", (22, 1)),
    (b"DEFINE V = 1 | @", b"", (3, 1, 15)),
    (b"DEFINE V = 1 |", b"", (7, 1, 14)),
    (b"DEFINE V = | 1", b"", (7, 1, 11)),
    (b"DEFINE V =| 1", b"", (7, 1, 10)),
    (b"DEFINE V |= 1", b"", (22, 1)),
]
