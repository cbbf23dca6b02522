"""Where 7 is (order 3 of document 02): the first token after which no continuation derives. Where all tokens are a good beginning it is the
expression's `#`, or its length.

A vector is an expression in two parts and the number: the refusal is where the second part starts.
"""
# All of it is a good beginning.
BEGINNINGS = [
    # the length, trailing blanks included (R38)
    (b"", b"", 7),
    (b" ", b"", 7),
    (b"\t \t", b"", 7),
    (b" " * 1024, b"", 7),
    (b"1 +", b"", 7),
    (b"1 + ", b"", 7),
    (b"1 +  ", b"", 7),
    (b"1 +\t\t", b"", 7),
    (b"1 +" + b" " * 1021, b"", 7),
    # the `#` (R38)
    (b"", b"#", 7),
    (b"  ", b"# 1", 7),
    (b" " * 1023, b"#", 7),
    (b"1 +", b"#", 7),
    (b"1 + ", b"#", 7),
    (b"1 + ", b"# 2", 7),
    (b"1 +\t\t", b"# c # d", 7),
    (b"1 == '#' ==", b"", 7),
    (b"'#' + ", b"# '", 7),
    (b"(1 ", b"# )", 7),
    (b"1 ? 2 ", b"# : 3", 7),
    # a continuation has no limits: 200 tokens, 16 parentheses (R37)
    (b"-" * 200, b"", 7),
    (b"-" * 200 + b" ", b"# 1", 7),
    (b"-" * 200 + b" " * 824, b"", 7),
    (b"1+" * 100, b"", 7),
    (b"(" * 16 + b"-" * 184, b"", 7),
    (b"(" * 16 + b"1" + b")" * 15 + b"+" + b"(" * 15, b"", 7),
    (b"(" * 16, b"", 7),
    (b"1?" * 100, b"", 7),
    # an operand is awaited
    (b"-", b"", 7),
    (b"NOT NOT ", b"", 7),
    (b"1 - - ", b"", 7),
    (b"1 AND NOT", b"", 7),
    (b"(", b"", 7),
    (b"1 + (", b"", 7),
    (b"(1 *", b"", 7),
    (b"1 ? ", b"", 7),
    (b"1 ? 2 : ", b"", 7),
    (b"1 ? 2 : 3 +", b"", 7),
    # a parenthesis is open
    (b"(1", b"", 7),
    (b"((1)", b"", 7),
    (b"((1) + (2)", b"", 7),
    (b"(1 ? 2 : 3", b"", 7),
    # a `?` has no `:`
    (b"1 ? 2", b"", 7),
    (b"1 ? 2 + 3 ", b"", 7),
    (b"1 ? 2 ? 3 : 4", b"", 7),
    (b"1 ? 2 : 3 ? 4", b"", 7),
    (b"1 ? (2)", b"", 7),
    (b"1 ? (2 ? 3", b"", 7),
    (b"1 ? (2 ? 3 : 4)", b"", 7),
    # kinds, values and names have no part in it
    (b"'a' + 'b' *", b"", 7),
    (b"g.None -", b"", 7),
    (b"1 / 0 /", b"", 7),
    (b"1 | 2 |", b"", 7),
]

# A token in the middle.
MIDDLE = [
    (b"(", b")", 7),
    (b"1 + (", b")", 7),
    (b"(1 + (", b")) 2", 7),
    (b"(-", b")", 7),
    (b"(1 +", b") + 2", 7),
    (b"(1)", b")", 7),
    (b"(1)", b") (", 7),
    (b"(1) ", b"(2)", 7),
    (b"(1 ", b"2)", 7),
    (b"(1 + 2 ", b"3)", 7),
    (b"1 ? ", b": 2", 7),
    (b"1 ? 2 : ", b": 3", 7),
    (b"1 ? 2 : 3 ", b": 4", 7),
    (b"1 ? 2 ? 3 : 4 : 5 ", b": 6", 7),
    (b"1 ? 2 : ", b"? 3", 7),
    (b"1 ? 2", b") : 3", 7),
    (b"(1 ? 2", b") : 3", 7),
    (b"(1 ? 2 ", b") # : 3)", 7),
    (b"1 ? (2 ", b": 3) : 4", 7),
    (b"1 ? (2 ? 3", b") : 4", 7),
    (b"(1 ", b": 2)", 7),
    (b"1 AND NOT ", b"AND 1", 7),
    (b"1 ", b"! == 2", 7),
    (b"1 ", b"NOT", 7),
    (b"1 + 1 ", b"~1", 7),
    # the first of several, whatever follows
    (b"1 ", b"2 3 4", 7),
    (b"1 ", b"2 # c", 7),
    (b"1 ", b"2 +", 7),
    (b"", b") 1 2", 7),
    (b"", b")" * 200, 7),
    (b"(", b")" + b"()" * 99, 7),
    # the last of 200 tokens
    (b"1+" * 99 + b"1 ", b"1", 7),
    (b"-" * 199, b")", 7),
    # as a string, a macro or a PCD, from its first byte
    (b"1 ", b"L'a'", 7),
    (b"'a'", b"'b'", 7),
    (b"L.a", b"'b'", 7),
    (b"$(A)", b"$(A)", 7),
    (b"1\t\t", b"gSpace.PcdName", 7),
]

# Where an operand is awaited, these cannot be next; `+` and `-` can.
BINARY = b"* / % << >> < <= > >= LT LE GT GE == != EQ NE & ^ | && AND and XOR xor || OR or".split()
OPENS = [b"+", b"-", b"!", b"NOT", b"not", b"~", b"("]
OPERANDS = [b"1", b"TRUE", b"'a'", b"L'a'", b"$(A)", b"g.Num"]
AWAITED = [b"", b"(", b"1 + ", b"1 OR ", b"NOT ", b"1 ? ", b"1 ? 2 : "]
WHOLE = [b"1 ", b"(1) ", b"-1 ", b"1 + 2 ", b"1 ? 2 : 3 "]

AFTER = [(front, token + b" 2", 7) for front in AWAITED for token in BINARY + [b"?", b":", b")"]]
AFTER += [(front + token, b"", 7) for front in AWAITED for token in OPENS]
# After a whole expression an operator between two operands can be next, and nothing that starts an operand only, nor `)` and `:`.
AFTER += [(front + token + b" ", b"", 7) for front in WHOLE for token in BINARY + [b"+", b"-", b"?"]]
AFTER += [(front, token, 7) for front in WHOLE for token in OPERANDS + [b"!", b"NOT", b"not", b"~", b"(", b")", b":"]]

VECTORS = BEGINNINGS + MIDDLE + AFTER
