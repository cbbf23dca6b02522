"""Every operator in every spelling, on numbers and on every mix of kinds (document 01, Precedence and Kinds and values)."""

# What a comparison says of a smaller and a larger, of two equal, and of a larger and a smaller.
COMPARISONS = {
    b"<": (1, 0, 0), b"LT": (1, 0, 0),
    b"<=": (1, 1, 0), b"LE": (1, 1, 0),
    b">": (0, 0, 1), b"GT": (0, 0, 1),
    b">=": (0, 1, 1), b"GE": (0, 1, 1),
    b"==": (0, 1, 0), b"EQ": (0, 1, 0),
    b"!=": (1, 0, 1), b"NE": (1, 0, 1),
}

# What the other operators make of 12 and 5.
ARITHMETIC = {
    b"*": 60, b"/": 2, b"%": 2, b"+": 17, b"-": 7, b"<<": 384, b">>": 0, b"&": 4, b"^": 9, b"|": 13,
}

# What the logical ones make of 0 and 0, 0 and 6, 6 and 0, 6 and 9.
LOGICAL = {
    b"&&": (0, 0, 0, 1), b"AND": (0, 0, 0, 1), b"and": (0, 0, 0, 1),
    b"XOR": (0, 1, 1, 0), b"xor": (0, 1, 1, 0),
    b"||": (0, 1, 1, 1), b"OR": (0, 1, 1, 1), b"or": (0, 1, 1, 1),
}

# What the unary ones make of 0 and of 5; 11 is a refusal.
UNARY = {
    b"!": (1, 0), b"NOT": (1, 0), b"not": (1, 0), b"+": (0, 5), b"-": (0, None), b"~": (2**64 - 1, 2**64 - 6),
}

# Two operands of which the first is smaller, by kind: numbers, strings, wide strings.
PAIRS = {0: (b"1", b"2"), 1: (b"'a'", b'"ab"'), 2: (b"L'a'", b'L"ab"')}


def joined(left, operator, right):
    # In parentheses, where bars are allowed, and with blanks, since words are runs.
    return b"(%s %s %s)" % (left, operator, right)


def wrong(left, operator, right):
    """A refusal of kinds, which is at the operator."""
    return joined(left, operator, right), 10, len(b"(%s " % left)


# Numbers are an expression, its value and count; what is refused is an expression, the number and the offset.
NUMBERS, REFUSED = [], []

for spelling, (smaller, equal, larger) in COMPARISONS.items():
    for low, high in PAIRS.values():
        NUMBERS += [
            (joined(low, spelling, high), smaller, 1),
            (joined(low, spelling, low), equal, 1),
            (joined(high, spelling, high), equal, 1),
            (joined(high, spelling, low), larger, 1),
        ]
    REFUSED += [wrong(PAIRS[i][0], spelling, PAIRS[j][0]) for i in range(3) for j in range(3) if i != j]

for spelling, value in ARITHMETIC.items():
    NUMBERS.append((joined(b"12", spelling, b"5"), value, 1))
for spelling, values in LOGICAL.items():
    for (left, right), value in zip([(b"0", b"0"), (b"0", b"6"), (b"6", b"0"), (b"6", b"9")], values):
        NUMBERS.append((joined(left, spelling, right), value, 1))
for spelling in list(ARITHMETIC) + list(LOGICAL):
    REFUSED += [wrong(PAIRS[i][0], spelling, PAIRS[j][0]) for i in range(3) for j in range(3) if i or j]

for spelling, values in UNARY.items():
    for operand, value in zip((b"0", b"5"), values):
        if value is None:
            REFUSED.append((spelling + b" " + operand, 11, 0))
        else:
            NUMBERS.append((spelling + b" " + operand, value, 1))
    REFUSED += [(spelling + b" " + PAIRS[kind][0], 10, 0) for kind in (1, 2)]

# `?:`: the test a number, the arms of one kind.
for test in range(3):
    for yes in range(3):
        for no in range(3):
            if test or yes != no:
                for operand in PAIRS[test]:
                    REFUSED.append((b"%s ? %s : %s" % (operand, PAIRS[yes][0], PAIRS[no][0]), 10, len(operand) + 1))
