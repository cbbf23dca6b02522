"""Expressions and their tokens, worked out by hand from document 01 and the decisions in docs/DECISIONS.md.

A vector is an expression, its refusal number (0: none) and the tokens that are read. A token is written as its text, followed by
its value where it is a number or a truth word; where its place matters, PLACES gives it. The place of a refusal follows from the tokens.
Both are the same in both editions unless there is a bare word among the tokens: then they are the old edition's, and in the new one the
first bare word is 3.
"""
import itertools

from editions import BAD_TOKEN, Differ

# The code of each spelling that has just one.
SYMBOLS = {
    b"(": 10, b")": 11, b"?": 12, b":": 13, b"!": 14, b"NOT": 14, b"not": 14, b"~": 15, b"+": 16, b"-": 17,
    b"*": 18, b"/": 19, b"%": 20, b"<<": 21, b">>": 22, b"<": 23, b"LT": 23, b"<=": 24, b"LE": 24,
    b">": 25, b"GT": 25, b">=": 26, b"GE": 26, b"==": 27, b"EQ": 27, b"!=": 28, b"NE": 28,
    b"&": 29, b"^": 30, b"|": 31, b"&&": 32, b"AND": 32, b"and": 32, b"XOR": 33, b"xor": 33,
    b"||": 34, b"OR": 35, b"or": 35,
}
NUMBER, TRUTH, STRING, WIDE, MACRO, PCD, BARE = range(7)


def number(text, value):
    return (NUMBER, text, value)


def truth(text, value):
    return (TRUTH, text, value)


def string(text):
    return (STRING, text, 0)


def wide(text):
    return (WIDE, text, 0)


def macro(text):
    return (MACRO, text, 0)


def pcd(text):
    return (PCD, text, 0)


def bare(text):
    return (BARE, text, 0)


def op(text):
    return (SYMBOLS[text], text, 0)


ONE = number(b"1", 1)
LARGEST = 18446744073709551615

VECTORS = [
    # document 01's own list, as far as tokens go
    (b"1 << 63", 0, [ONE, op(b"<<"), number(b"63", 63)]),
    (b"(" * 16 + b"1" + b")" * 16, 0, [op(b"(")] * 16 + [ONE] + [op(b")")] * 16),
    (b"(" * 17 + b"1" + b")" * 17, 6, [op(b"(")] * 17 + [ONE] + [op(b")")] * 17),
    (b"1 " * 200, 0, [ONE] * 200),
    (b"1 " * 201, 5, [ONE] * 200),
    (b"18446744073709551615", 0, [number(b"18446744073709551615", LARGEST)]),
    (b"18446744073709551616", 4, []),
    (b"007", 3, []),
    (b"0x", 3, []),
    (b'L"a" == "a"', 0, [wide(b'L"a"'), op(b"=="), string(b'"a"')]),
    (b"$(NOPE) == 0", 0, [macro(b"$(NOPE)"), op(b"=="), number(b"0", 0)]),
    (b"", 0, []),
    # blanks and comments
    (b" \t  ", 0, []),
    (b"#", 0, []),
    (b"  # 1 + (", 0, []),
    (b"1#2", 0, [ONE]),
    (b"'#' # '", 0, [string(b"'#'")]),
    (b"\t1\t+\t1\t", 0, [ONE, op(b"+"), ONE]),
    (b"1\r", 3, [ONE]),
    (b"1\n2", 3, [ONE]),
    (b"\x0b", 3, []),
    (b"\x00", 3, []),
    (b"1 \x00", 3, [ONE]),
    # decimals
    (b"0", 0, [number(b"0", 0)]),
    (b"9", 0, [number(b"9", 9)]),
    (b"10", 0, [number(b"10", 10)]),
    (b"00", 3, []),
    (b"01", 3, []),
    (b"08", 3, []),
    (b"1a", 3, []),
    (b"1_0", 3, []),
    (b"12x", 3, []),
    (b"99999999999999999999", 4, []),
    (b"99999999999999999999x", 3, []),  # R2
    (b"18446744073709551614", 0, [number(b"18446744073709551614", LARGEST - 1)]),
    (b"18446744073709551620", 4, []),
    (b"184467440737095516150", 4, []),
    (b"1 18446744073709551616 @", 4, [ONE]),  # R11
    (b"1 @ 18446744073709551616", 3, [ONE]),  # R10
    # hexadecimals
    (b"0x0", 0, [number(b"0x0", 0)]),
    (b"0Xf", 0, [number(b"0Xf", 15)]),
    (b"0xAbCdEf09", 0, [number(b"0xAbCdEf09", 0xABCDEF09)]),
    (b"0xffffffffffffffff", 0, [number(b"0xffffffffffffffff", LARGEST)]),
    (b"0x10000000000000000", 4, []),
    (b"0x00000000000000000001", 0, [number(b"0x00000000000000000001", 1)]),  # R3
    (b"0x1g", 3, []),
    (b"0xG", 3, []),
    (b"0x_1", 3, []),
    (b"1x1", 3, []),
    (b"0X", 3, []),
    (b"00x1", 3, []),
    # words
    (b"TRUE True true", 0, [truth(b"TRUE", 1), truth(b"True", 1), truth(b"true", 1)]),
    (b"FALSE False false", 0, [truth(b"FALSE", 0), truth(b"False", 0), truth(b"false", 0)]),
    (b"NOT not AND and XOR xor OR or", 0, [op(w) for w in (b"NOT", b"not", b"AND", b"and", b"XOR", b"xor", b"OR", b"or")]),
    (b"LT LE GT GE EQ NE", 0, [op(w) for w in (b"LT", b"LE", b"GT", b"GE", b"EQ", b"NE")]),
    (b"tRUE", 3, []),
    (b"Not", 3, []),
    (b"lt", 3, []),
    (b"ANDY", 3, []),
    (b"AN", 3, []),
    (b"T", 3, []),
    (b"TRUE1", 3, []),
    (b"_", 3, []),
    (b"NOT1", 3, []),
    (b"1AND", 3, []),
    (b"foo", 3, []),
    # PCD names win over words
    (b"a.b", 0, [pcd(b"a.b")]),
    (b"NOT.x", 0, [pcd(b"NOT.x")]),
    (b"TRUE.FALSE", 0, [pcd(b"TRUE.FALSE")]),
    (b"_._", 0, [pcd(b"_._")]),
    (b"gEfi9.Pcd_1Foo2", 0, [pcd(b"gEfi9.Pcd_1Foo2")]),
    (b"L.a'b'", 0, [pcd(b"L.a"), string(b"'b'")]),
    (b"a.b.c", 3, [pcd(b"a.b")]),  # R1
    (b"AND.1", 3, [op(b"AND")]),  # R1
    (b"a.1", 3, []),  # R1
    (b"a.", 3, []),
    (b"TRUE.", 3, [truth(b"TRUE", 1)]),
    (b"a .b", 3, []),
    (b"TRUE .b", 3, [truth(b"TRUE", 1)]),
    (b".a", 3, []),
    (b"1.a", 3, [ONE]),  # R1
    (b"9a.b", 3, []),
    (b"X" * 65 + b".y", 0, [pcd(b"X" * 65 + b".y")]),
    # macros
    (b"$(A)", 0, [macro(b"$(A)")]),
    (b"$(A_9Z)", 0, [macro(b"$(A_9Z)")]),
    (b"$(" + b"X" * 65 + b")", 0, [macro(b"$(" + b"X" * 65 + b")")]),  # R6
    (b"$(A)$(B)", 0, [macro(b"$(A)"), macro(b"$(B)")]),
    (b"$( A)", 3, []),
    (b"$(A )", 3, []),
    (b"$(a)", 3, []),
    (b"$(_A)", 3, []),
    (b"$(1A)", 3, []),
    (b"$(Ab)", 3, []),
    (b"$()", 3, []),
    (b"$(A", 3, []),
    (b"$A", 3, []),
    (b"$", 3, []),
    (b"$ (A)", 3, []),
    # strings
    (b'""', 0, [string(b'""')]),
    (b"''", 0, [string(b"''")]),
    (b"\"it's\"", 0, [string(b"\"it's\"")]),
    (b"'say \"x\"'", 0, [string(b"'say \"x\"'")]),
    (b"'a\"", 3, []),
    (b"\"a'", 3, []),
    (b'"a', 3, []),
    (b'"', 3, []),
    (b'"a\n"', 3, []),
    (b'"a\r"', 3, []),
    (b'"a\\"', 0, [string(b'"a\\"')]),
    (b'"\x00\xff\t"', 0, [string(b'"\x00\xff\t"')]),
    (b"'a''b'", 0, [string(b"'a'"), string(b"'b'")]),
    (b"L''", 0, [wide(b"L''")]),
    (b'L"x"', 0, [wide(b'L"x"')]),
    (b'L "x"', 3, []),
    (b"l'x'", 3, []),
    (b"LL'x'", 3, []),
    (b"L'x", 3, []),  # R9
    (b"L", 3, []),
    (b"LE'x'", 0, [op(b"LE"), string(b"'x'")]),  # R9
    (b"1'x'", 0, [ONE, string(b"'x'")]),
    # symbols, longest first
    (b"()?:!~+-*/%", 0, [op(bytes([b])) for b in b"()?:!~+-*/%"]),
    (b"<<>><=>=<>", 0, [op(w) for w in (b"<<", b">>", b"<=", b">=", b"<", b">")]),
    (b"==!=&&||&^|", 0, [op(w) for w in (b"==", b"!=", b"&&", b"||", b"&", b"^", b"|")]),
    (b"<<<", 0, [op(b"<<"), op(b"<")]),
    (b"<<=", 3, [op(b"<<")]),
    (b">>>", 0, [op(b">>"), op(b">")]),
    (b"&&&", 0, [op(b"&&"), op(b"&")]),
    (b"|||", 0, [op(b"||"), op(b"|")]),
    (b"!==", 3, [op(b"!=")]),
    (b"!!=", 0, [op(b"!"), op(b"!=")]),
    (b"===", 3, [op(b"==")]),
    (b"=", 3, []),
    (b"< =", 3, [op(b"<")]),
    (b"1+-1", 0, [ONE, op(b"+"), op(b"-"), ONE]),
    # bytes that start nothing
    (b"@", 3, []),
    (b",", 3, []),
    (b"{1}", 3, []),
    (b"[", 3, []),
    (b"\\", 3, []),
    (b";", 3, []),
    (b"`", 3, []),
    (b"\x7f", 3, []),
    (b"\x80", 3, []),
    (b"\xe9", 3, []),  # R7
    (b"A\xc9", 3, []),
    # the length: 1,024 bytes are fine, comments and blanks count
    (b"1" + b" " * 1023, 0, [ONE]),
    (b"1" + b" " * 1024, 2, []),  # R8
    (b"#" * 1024, 0, []),
    (b"#" * 1025, 2, []),
    (b"@" * 1025, 2, []),  # R10
    (b"'" + b"x" * 1022 + b"'", 0, [string(b"'" + b"x" * 1022 + b"'")]),
    # 200 tokens: a comment or blanks may follow, anything else is 5, whatever it is
    (b"1 " * 200 + b" \t# 1 1 1", 0, [ONE] * 200),
    (b"-" * 200, 0, [op(b"-")] * 200),
    (b"-" * 201, 5, [op(b"-")] * 200),  # R11
    (b"-" * 200 + b"@", 5, [op(b"-")] * 200),
    (b"-" * 200 + b"18446744073709551616", 5, [op(b"-")] * 200),
    (b"-" * 200 + b"\x00", 5, [op(b"-")] * 200),
    (b"-" * 199 + b"@", 3, [op(b"-")] * 199),
    (b"-" * 199 + b"1.a", 5, [op(b"-")] * 199 + [ONE]),  # R1
    (b"-" * 199 + b"a.1", 3, [op(b"-")] * 199),  # R1
    (b"-" * 199 + b"a.b.c", 5, [op(b"-")] * 199 + [pcd(b"a.b")]),
    (b"-" * 199 + b"===", 5, [op(b"-")] * 199 + [op(b"==")]),
    (b"-" * 199 + b"AND.1", 5, [op(b"-")] * 199 + [op(b"AND")]),
    (b"-" * 199 + b"0x", 3, [op(b"-")] * 199),
    (b"-" * 199 + b"18446744073709551616", 4, [op(b"-")] * 199),
    # 16 open parentheses: those of a macro are no tokens, and the difference is signed
    (b"(" * 16 + b"$(A)" + b")" * 16, 0, [op(b"(")] * 16 + [macro(b"$(A)")] + [op(b")")] * 16),  # R4
    (b")" * 10 + b"(" * 26 + b"1", 0, [op(b")")] * 10 + [op(b"(")] * 26 + [ONE]),  # R5
    (b")" * 10 + b"(" * 27, 6, [op(b")")] * 10 + [op(b"(")] * 27),  # R5
    (b"(" * 17, 6, [op(b"(")] * 17),  # R10
    (b"(" * 17 + b")" * 17 + b"@", 3, [op(b"(")] * 17 + [op(b")")] * 17),
    (b"()" * 100, 0, [op(b"("), op(b")")] * 100),
    (b"(" * 200, 6, [op(b"(")] * 200),
    (b"(" * 201, 5, [op(b"(")] * 200),
    (b")" * 200, 0, [op(b")")] * 200),
    (b"'((((((((((((((((('", 0, [string(b"'((((((((((((((((('")]),
]

EQUAL = op(b"==")
# Bare words, and what is none after these four operators.
VECTORS += [
    (b"== a", 0, [EQUAL, bare(b"a")]),
    (b"==a", 0, [EQUAL, bare(b"a")]),
    (b"!=\t_", 0, [op(b"!="), bare(b"_")]),
    (b"EQ L", 0, [op(b"EQ"), bare(b"L")]),
    (b"NE \t And ", 0, [op(b"NE"), bare(b"And")]),
    (b'"a" == a', 0, [string(b'"a"'), EQUAL, bare(b"a")]),
    (b"'a'==a", 0, [string(b"'a'"), EQUAL, bare(b"a")]),
    (b"== a1_", 0, [EQUAL, bare(b"a1_")]),
    (b"== a18446744073709551616", 0, [EQUAL, bare(b"a18446744073709551616")]),
    (b"== _0x", 0, [EQUAL, bare(b"_0x")]),
    (b"== tRUE", 0, [EQUAL, bare(b"tRUE")]),
    (b"== a#b", 0, [EQUAL, bare(b"a")]),
    (b"==#a", 0, [EQUAL]),
    (b"== a == b", 0, [EQUAL, bare(b"a"), EQUAL, bare(b"b")]),
    (b"==a!=b EQ c", 0, [EQUAL, bare(b"a"), op(b"!="), bare(b"b"), op(b"EQ"), bare(b"c")]),
    (b"== EQ a", 0, [EQUAL, op(b"EQ"), bare(b"a")]),
    (b"==!=a", 0, [EQUAL, op(b"!="), bare(b"a")]),
    (b"== a'b'", 0, [EQUAL, bare(b"a"), string(b"'b'")]),
    (b"== L 'b'", 0, [EQUAL, bare(b"L"), string(b"'b'")]),  # R42
    (b"== LL'b'", 0, [EQUAL, bare(b"LL"), string(b"'b'")]),
    (b"== a(1)", 0, [EQUAL, bare(b"a"), op(b"("), ONE, op(b")")]),
    (b"== a$(A)", 0, [EQUAL, bare(b"a"), macro(b"$(A)")]),
    (b"== LABEL", 0, [EQUAL, bare(b"LABEL")]),  # R43
    # refused after the bare word
    (b"== a b", 3, [EQUAL, bare(b"a")]),
    (b"== a-b", 3, [EQUAL, bare(b"a"), op(b"-")]),
    (b"== foo.1", 3, [EQUAL, bare(b"foo")]),  # R44
    (b"== foo.", 3, [EQUAL, bare(b"foo")]),
    (b"== foo .b", 3, [EQUAL, bare(b"foo")]),
    (b"== a\xe9", 3, [EQUAL, bare(b"a")]),
    (b"== a 18446744073709551616", 4, [EQUAL, bare(b"a")]),
    (b"(" * 17 + b"==a", 6, [op(b"(")] * 17 + [EQUAL, bare(b"a")]),
    (b"==a" + b"(" * 17, 6, [EQUAL, bare(b"a")] + [op(b"(")] * 17),
    # no bare word
    (b"a == 'a'", 3, []),  # R45
    (b"a == a", 3, []),
    (b"== (a)", 3, [EQUAL, op(b"(")]),  # R45
    (b"== !a", 3, [EQUAL, op(b"!")]),  # R45
    (b"< a", 3, [op(b"<")]),
    (b"<= a", 3, [op(b"<=")]),
    (b"=== a", 3, [EQUAL]),
    (b"== = a", 3, [EQUAL]),
    (b"EQa", 3, []),
    (b"EQ1", 3, []),
    (b"== 1a", 3, [EQUAL]),
    (b"== L'b", 3, [EQUAL]),  # R42
    (b"== L'b'", 0, [EQUAL, wide(b"L'b'")]),
    (b"== foo.bar", 0, [EQUAL, pcd(b"foo.bar")]),  # R46
    (b"== foo.bar.1", 3, [EQUAL, pcd(b"foo.bar")]),
    (b"EQ.x", 0, [pcd(b"EQ.x")]),
    (b"EQ.x a", 3, [pcd(b"EQ.x")]),
    (b"== TRUE", 0, [EQUAL, truth(b"TRUE", 1)]),  # R46
    (b"== false", 0, [EQUAL, truth(b"false", 0)]),
    # token 200, and what follows it
    (b"-" * 197 + b"==a", 0, [op(b"-")] * 197 + [EQUAL, bare(b"a")]),
    (b"-" * 198 + b"==a", 0, [op(b"-")] * 198 + [EQUAL, bare(b"a")]),
    (b"-" * 198 + b"==a # b", 0, [op(b"-")] * 198 + [EQUAL, bare(b"a")]),
    (b"-" * 198 + b"==a b", 5, [op(b"-")] * 198 + [EQUAL, bare(b"a")]),
    (b"-" * 198 + b"==a.1", 5, [op(b"-")] * 198 + [EQUAL, bare(b"a")]),  # R44
    (b"-" * 199 + b"==a", 5, [op(b"-")] * 199 + [EQUAL]),
    (b"-" * 198 + b"==L'b", 3, [op(b"-")] * 198 + [EQUAL]),  # R42
    (b"-" * 199 + b"==L'b", 5, [op(b"-")] * 199 + [EQUAL]),
    # the length
    (b"==" + b"x" * 1022, 0, [EQUAL, bare(b"x" * 1022)]),
    (b"==" + b"x" * 1023, 2, []),
]
VECTORS += [(b"NE " + word, 0, [op(b"NE"), op(word)]) for word in SYMBOLS if word.isalpha()]  # R46

# The bytes next to the ranges of letters and digits are in no name.
for beside in (b"@", b"[", b"`", b"{", b"/", b":"):
    VECTORS += [
        (b"$(A" + beside + b")", 3, []),
        (b"$(" + beside + b"A)", 3, []),
        (b"a" + beside + b".b", 3, []),
        (b"a." + beside + b"b", 3, []),
    ]

# Places: an expression, and where each of its tokens starts.
PLACES = [
    (b"  1 +\t$(A)#", [2, 4, 6]),
    (b"L'a' == g.P", [0, 5, 8]),
    (b"(1)<<2", [0, 1, 2, 3, 5]),
    (b" " * 1023 + b"1", [1023]),
]


def after_blanks(expression, at):
    while expression[at : at + 1] in (b" ", b"\t"):
        at += 1
    return at


def expected(tokens, expression):
    """The tokens with their places: each stands at the first place after the one before where its text is found past blanks."""
    at, out = 0, []
    for code, text, value in tokens:
        at = after_blanks(expression, at)
        out.append((code, at, len(text), value))
        if expression[at : at + len(text)] != text:
            raise AssertionError("the vector's tokens are not the expression's text")
        at += len(text)
    return out


def place(refusal, tokens, expression):
    """Where a refusal is: 3, 4 and 5 at the first byte after the tokens that were read and blanks, 6 at the first token after which `(`
    outnumber `)` by 17, all others at 0."""
    read = expected(tokens, expression)
    if refusal in (3, 4, 5):
        return after_blanks(expression, read[-1][1] + read[-1][2] if read else 0)
    if refusal == 6:
        depths = list(itertools.accumulate({b"(": 1, b")": -1}.get(text, 0) for _, text, _ in tokens))
        return read[depths.index(17)][1]
    return 0


def answer(expression, refusal, read):
    """The answer of a vector: the refusal's number and place, and the tokens with their places."""
    in_old = refusal, place(refusal, read, expression), expected(read, expression)
    before = list(itertools.takewhile(lambda token: token[0] != BARE, read))
    if before == read:
        return in_old
    return Differ(in_old, (BAD_TOKEN, place(BAD_TOKEN, before, expression), expected(before, expression)))
