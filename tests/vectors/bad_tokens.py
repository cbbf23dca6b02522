"""Where 3, 4, 5 and 6 are (order 3 of document 02): the first byte of the bad, too large or 201st token, and the first parenthesis that is
too deep.

A vector is an expression in two parts and the number: the refusal is where the second part starts.
"""
BIG = b"18446744073709551616"

BAD = [
    (b"1 + ", b"@", 3),
    (b"\t\t1\t+\t", b"@", 3),
    (b"'@' == ", b"@", 3),
    (b"'#' + ", b"@ # c", 3),
    (b"1 ", b"\x0b+ 1", 3),
    (b"1 ", b"\x00", 3),
    (b"'\xe9' == ", b"\xe9", 3),
    (b"1 + 1", b"\r", 3),
    (b"1 + 1 ", b"\n+ 1", 3),
    (b" " * 1023, b"@", 3),
    # the leftmost
    (b"1 + ", b"@ + @", 3),
    (b"", b"foo == bar", 3),
    (b"1 <= ", b"foo", 3),
    # the longest token is read, and the byte after it starts none (R1)
    (b"1", b".a", 3),
    (b"1 + 1", b".a", 3),
    (b"1", b".5", 3),
    (b"0x1", b".a", 3),
    (b"a.b", b".c", 3),
    (b"a.b", b".1", 3),
    (b"g.Num", b".x", 3),
    (b"L.a", b".b", 3),
    (b"AND", b".1", 3),
    (b"TRUE", b".", 3),
    (b"TRUE", b"..b", 3),
    (b"TRUE ", b".b", 3),
    (b"==", b"=", 3),
    (b"1 ==", b"= 1", 3),
    (b"1 !=", b"= 1", 3),
    (b"1 <=", b"= 1", 3),
    (b"1 >>", b"= 1", 3),
    (b"1 ", b"=< 2", 3),
    (b"1 < ", b"= 2", 3),
    (b"A.A", b"\xc9", 3),
    (b"$(A)", b"@", 3),
    (b"'a'", b"@", 3),
    # a run that is itself no token is bad from its first byte (R1)
    (b"", b"a.1", 3),
    (b"1 + ", b"a.1", 3),
    (b"", b"a.", 3),
    (b"", b"a..b", 3),
    (b"", b"a .b", 3),
    (b"1 + ", b"9a.b", 3),
    (b"1 + ", b"12x", 3),
    (b"1 + ", b"007", 3),
    (b"1 + ", b"0x", 3),
    (b"1 + ", b"0x1G", 3),
    (b"1 AND ", b"ANDY", 3),
    (b"1 ", b"And 1", 3),
    (b"1 + ", b"_", 3),
    # a string without its end: its quote, or the `L` of a wide one (R40)
    (b"1 == ", b"'a", 3),
    (b"1 == ", b"'a # b", 3),
    (b"'a' == ", b"'b", 3),
    (b"'a' == ", b"\"b'", 3),
    (b"'a''b'", b"'", 3),
    (b"1 + ", b"'a\rb'", 3),
    (b"", b"L'a", 3),  # R9
    (b"1 + ", b"L'a", 3),
    (b"1 + ", b"L\"a'", 3),
    (b"1 + ", b"L'a\nb'", 3),
    (b"1 + ", b"L 'a'", 3),
    (b"1 + ", b"L", 3),
    (b"1 + ", b"l'a'", 3),
    (b"L'a'", b"L'b", 3),
    # a bad macro: its `$`
    (b"1 == ", b"$(a)", 3),
    (b"1 == ", b"$(A", 3),
    (b"1 == ", b"$(A )", 3),
    (b"1 == ", b"$(A@)", 3),
    (b"1 + ", b"$()", 3),
    (b"1 + ", b"$(", 3),
    (b"1 + ", b"$", 3),
    (b"1 + ", b"$ (A)", 3),
    (b"$(A)", b"$(b)", 3),
]

LARGE = [
    (b"1 + ", BIG, 4),
    (b"-", BIG, 4),
    (b"(", b"0xFFFFFFFFFFFFFFFF0)", 4),
    (b"18446744073709551615 == ", BIG, 4),
    (b"\t", b"99999999999999999999\t", 4),
    (b" " * 1004, BIG, 4),
    (b"1 ? 2 : ", BIG, 4),
    (b"0 AND ", BIG, 4),
    (b"", BIG + b" + 18446744073709551617", 4),
    (b"", BIG + b".a", 4),
    (b"-" * 198, BIG + b" 1", 4),
]

FOLLOWS = [
    (b"1 " * 200, b"1", 5),
    (b"-" * 200 + b" \t ", b"- 1", 5),
    (b"-" * 200 + b" " * 823, b"0", 5),
    (b"1 +  " * 100, b"1", 5),
    (b"+1" * 100, b"+1", 5),
    (b"+1" * 100, b"' # no comment", 5),
    (b"-" * 199 + b"gSpace.PcdName ", b"== 1", 5),
    (b"-" * 199 + b"'# no comment'", b"'b' # a comment", 5),
    # whatever it is, its first byte
    (b"-" * 200, b"$(a)", 5),
    (b"-" * 200 + b" ", b"'a", 5),
    (b"-" * 200, b"\x00", 5),
    (b"-" * 200, b"\r", 5),
    (b"-" * 200, b"L'a", 5),
    (b"-" * 199 + b"1", b".a", 5),
    (b"-" * 199 + b"a.b", b".c", 5),
    (b"-" * 199 + b"AND", b".1", 5),
    (b"-" * 199 + b"==", b"=", 5),
    (b"-" * 199 + b"0", b"'a'", 5),
]

PARENTHESES = [
    (b"(" * 16, b"(", 6),
    (b"( " * 16, b"( 1", 6),
    (b"1 + " + b"(" * 16, b"(2" + b")" * 17, 6),
    # the first of several
    (b"(" * 16, b"((((", 6),
    (b"(" * 16, b"()()", 6),
    (b"(" * 16, b"(" + b")" * 17 + b"(" * 17, 6),
    (b"(" * 15 + b"()" + b"(", b"(", 6),
    (b"(" * 16 + b"1" + b")" * 16 + b" + " + b"(" * 16, b"(1", 6),
    (b"(" * 16 + b")" * 16 + b"(" * 16, b"(", 6),
    # the difference is signed
    (b")" + b"(" * 17, b"(", 6),
    (b")" * 3 + b"(" * 19, b"((", 6),
    (b")" * 10 + b"(" * 26, b"(", 6),  # R5
    # no parentheses of their own: macros, strings
    (b"$(A)" + b"(" * 16, b"(", 6),
    (b"(" * 16 + b"$(A)", b"(", 6),
    (b"'((((((((((((((((((' == " + b"(" * 16, b"(", 6),
    (b"(" * 16 + b" " * 1007, b"(", 6),
    (b"(" * 16, b"(" * 184, 6),
]

VECTORS = BAD + LARGE + FOLLOWS + PARENTHESES
