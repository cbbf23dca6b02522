"""Operators of DEFINE lines (order 6 of document 02): those that are applied count, beside those of conditions. Worked out by hand.

A vector is a file, with `|` for the LF between its lines, and its answer: the marks as digits and the count of operators. Nothing is set in
the table.
"""
FILES = [
    (b"DEFINE A = 1", ("6", 0)),
    (b"DEFINE A = (((1)))", ("6", 0)),
    (b"DEFINE A = 1 + 2 * 3", ("6", 2)),
    (b"DEFINE A = !!!!0", ("6", 4)),
    (b"DEFINE A = 1 + 1|DEFINE B = 2 + 2 + 2", ("66", 3)),
    (b"DEFINE A = 1 + 1|!if $(A) == 2|!endif", ("645", 2)),
    # a macro brings no operators: they were counted where it was set
    (b"DEFINE A = 1 + 1|!if $(A) == $(A)|!endif", ("645", 2)),
    (b"DEFINE A = !0|!if $(A)|!endif|!if $(A)|!endif", ("64545", 1)),
    (b"DEFINE A = !0|DEFINE B = $(A)|DEFINE C = $(B)", ("666", 1)),
    # each time that a macro is set
    (b"DEFINE A = !0|DEFINE A = !0|DEFINE A = !0", ("666", 3)),
    # those that are skipped do not count
    (b"DEFINE A = 0 AND 1 / 0", ("6", 1)),
    (b"DEFINE A = 1 OR 1 / 0 + 2", ("6", 1)),
    (b"DEFINE A = 1 ? 2 : 1 / 0", ("6", 1)),
    (b"DEFINE A = 0 ? 1 / 0 : 1 + 1", ("6", 2)),
    (b"DEFINE A = 1 ? 'a' : 'b'", ("6", 1)),
    (b"DEFINE A = 'a' < 'b'", ("6", 1)),
    # nor those of lines that are not kept
    (b"!if 0|DEFINE A = 1 + 1|!endif", ("305", 0)),
    (b"!if !0|DEFINE A = 1 + 1|!else|DEFINE A = 2 + 2 + 2|!endif", ("46305", 2)),
    (b"!if !1|DEFINE A = 1 + 1|!else|DEFINE A = 2 + 2 + 2|!endif", ("30465", 3)),
    # all of a file
    (b"DEFINE A = 1 + 1|!if $(A) == 2|DEFINE A = $(A) * $(A) - 1|!elif 1 + 1|!endif|!if $(A) == 3|!endif", ("6462545", 5)),
    (b"|".join([b"DEFINE A = " + b"!" * 199 + b"0"] * 30), ("6" * 30, 30 * 199)),
    (b"|".join([b"DEFINE A = 1 + 1|!if $(A) - 1|!endif"] * 500), ("645" * 500, 1000)),
]
VECTORS = [(file.replace(b"|", b"\n"), wanted) for file, wanted in FILES]
