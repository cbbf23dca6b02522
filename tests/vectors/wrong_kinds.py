"""Where 10 is (order 3 of document 02): the operator, `?` for `?:`; of several with wrong kinds the leftmost that has no wrong one inside
its operands. Under the table of settings.py; every operator in every spelling is in operators.py.

A vector is an expression in two parts and the number: the refusal is where the second part starts.
"""
# One wrong operator.
ONE = [
    (b"1 ", b"+ 'a'", 10),
    (b"1", b"+'a'", 10),
    (b"\t1\t", b"+\t'a'", 10),
    (b"", b"!'a'", 10),
    (b"  ", b"NOT 'a'", 10),
    (b" " * 1020, b"-'a'", 10),
    (b"(('a')) ", b"+ 1", 10),
    (b"1 + 2 * 3 ", b"- 'a'", 10),
    (b"1 + 2 ", b"* 'a'", 10),
    (b"L'a' ", b"== 'a'", 10),
    (b"1 == 1 ", b"AND 'a'", 10),
    (b"g.Wide ", b"== a.Str", 10),
    (b"1 + $(S) ", b"* 2", 10),
    (b"1 + 2 ", b"== $(S)", 10),
    # what a comparison or a `?:` gives has a kind of its own
    (b"'a' == 'b' ", b"== 'c'", 10),
    (b"'a' ", b"== ('b' == 'c')", 10),
    (b"1 + ('a' == 'b') ", b"+ 'c'", 10),
    (b"(1 ? 'a' : 'b') ", b"+ 2", 10),
    (b"(1 ? 2 : 3) ", b"== 'a'", 10),
    (b"", b"-(1 ? 'a' : 'b')", 10),
]

# Several: not the leftmost, and not the outermost, if it has a wrong one inside.
SEVERAL = [
    # the inner one, in a left operand and in a right one
    (b"('a' ", b"+ 1) + 'b'", 10),
    (b"'b' + ('a' ", b"+ 1)", 10),
    (b"'a' + 1 ", b"* 'b'", 10),
    (b"'a' == ", b"-'b'", 10),
    (b"'x' == ('a' ", b"== 1)", 10),
    (b"('a' ", b"== 1) == 'b'", 10),
    (b"'a' + ('b' + ('c' ", b"+ 1))", 10),
    (b"((1 ", b"+ 'c') + 'b') + 'a'", 10),
    (b"'a' OR 'b' XOR 'c' AND 'd' ", b"+ 1", 10),
    (b"'a' ", b"AND 'b' OR 'c' XOR 'd' + 1", 10),
    # of two that have none inside, the left one
    (b"('a' ", b"+ 1) == ('b' * 2)", 10),
    (b"1 ", b"* 'a' + 'b' * 2", 10),
    (b"1 + ('a' ", b"* 2) == (3 - 'b')", 10),
    (b"1 - ('a' ", b"* (2 - 3)) + ('b' - 'c')", 10),
    (b"", b"-'a' + -'b'", 10),
    (b"'x' + (1 ", b"+ 'a') * (2 + 'b')", 10),
    # a chain to the left
    (b"1 ", b"+ 'a' + 'b'", 10),
    (b"'a' ", b"+ 'b' + 'c'", 10),
    (b"1 + 2 ", b"+ 'a' + 'b'", 10),
    (b"'a'", b"+1" * 99, 10),
    (b"1" + b"+1" * 98, b"+'a'", 10),
    # unary ones, the inner one
    (b"- ", b"- 'a'", 10),
    (b"!", b"~'a'", 10),
    (b"NOT ", b'NOT "a"', 10),
    (b"!('a' ", b"+ 1)", 10),
    (b"1 + ", b"-'b'", 10),
    (b"-" * 198, b"-'a'", 10),
    # in parentheses
    (b"(" * 16 + b"'a' ", b"+ 1" + b")" * 16 + b" + 'b'", 10),
    (b"'b' + " + b"(" * 16 + b"'a' ", b"+ 1" + b")" * 16, 10),
]

CHOICES = [
    (b"'a' ", b"? 1 : 2", 10),
    (b"1 ", b"? 1 : 'a'", 10),
    (b"1 ", b"? 'a' : 1", 10),
    (b"1 ", b"? 'a' : L'a'", 10),
    (b"'a' ", b"? 'b' : 'c'", 10),
    (b"'a' ", b"? 1 : 'b'", 10),
    (b"1 + 1 ", b"? 1 : 'a'", 10),
    # one that is wrong inside its test or its arms, chosen or not
    (b"", b"-'a' ? 1 : 2", 10),
    (b"1 ? ", b"-'a' : 2", 10),
    (b"0 ? ", b"-'a' : 2", 10),
    (b"1 ? 2 : ", b"-'a'", 10),
    (b"0 ? 2 : ", b"-'a'", 10),
    (b"", b"-'a' ? -'b' : -'c'", 10),
    (b"'a' ? ", b"-'b' : -'c'", 10),
    (b"'a' ? 'b' : ", b"NOT 'c'", 10),
    (b"1 ? 'b' : 1 ", b"+ 'c'", 10),
    (b"'x' ? 1 ", b"+ 'a' : 'b'", 10),
    # one in another
    (b"1 ? 2 : 'a' ", b"? 1 : 2", 10),
    (b"1 ", b"? 2 : 0 ? 'b' : 'c'", 10),
    (b"1 ? 1 ", b"? 'a' : 2 : 3", 10),
    (b"1 ", b"? 1 ? 'a' : 'b' : 3", 10),
    (b"'x' ? 1 ", b"? 'a' : 2 : 3", 10),
    (b"'x' ? 1 : 2 ", b"? 'a' : 3", 10),
    (b"(1 ", b"? 'a' : 2) ? 3 : 'b'", 10),
    (b"('a' ", b"? 1 : 2) + 'b'", 10),
    (b"'b' + ('a' ", b"? 1 : 2)", 10),
    (b"0?1:" * 48 + b"0", b"?1:'a'", 10),
    (b"1?" * 48 + b"1", b"?'a'" + b":1" * 49, 10),
]

# Skipped operands count as well, and faults of values do not.
SKIPPED = [
    (b"0 ", b"AND 'a'", 10),
    (b"0 AND ", b"-'a'", 10),
    (b"0 AND 1 ", b"+ 'a' OR 'b'", 10),
    (b"1 OR 1 ", b"+ 'a'", 10),
    (b"1 ", b"OR 'a'", 10),
    (b"(1 ", b"|| 'a')", 10),
    (b"(1 || ('a' ", b"| 2))", 10),
    (b"1 ? 2 : 3 ", b"+ 'a'", 10),
    (b"0 ? 1 ", b"+ 'a' : 2", 10),
    (b"0 AND (1 ", b"? 'a' : 2)", 10),
    (b"0 ", b"AND (1 ? 'a' : 'b')", 10),
    (b"1 / 0 + ('a' ", b"+ 1)", 10),
    (b"(5 - 7) ", b"== 'a'", 10),
]

VECTORS = ONE + SEVERAL + CHOICES + SKIPPED
