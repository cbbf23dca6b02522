"""Bare words (order 5 of document 02): in the old edition a run that can be nothing else, as the next token after `==`, `!=`, EQ or NE, is
a string of its own bytes. Everywhere else, and in the new edition, it is 3. Worked out by hand from documents 01 and 02 and the decisions in
docs/DECISIONS.md (R41 to R46, R48), under the table of settings.py.

An expression is in two parts. In TAKEN and REFUSED the second starts with the first bare word, and in the new edition it is refused there,
with 3. For the old edition TAKEN has the number and the count of operators, and REFUSED the refusal's number and the rest of the expression
from its place on. In VECTORS both editions refuse with one number, where the second part starts.
"""
OPERATORS = [b"==", b"!=", b"EQ", b"NE"]
# All others that have a right operand, the unary ones included.
OTHERS = [
    b"!", b"NOT", b"not", b"+", b"-", b"~", b"*", b"/", b"%", b"<<", b">>", b"<", b"<=", b">", b">=", b"LT", b"LE", b"GT", b"GE", b"&",
    b"^", b"|", b"&&", b"AND", b"and", b"XOR", b"xor", b"||", b"OR", b"or",
]
BINARY_WORDS = [b"LT", b"LE", b"GT", b"GE", b"EQ", b"NE", b"AND", b"and", b"XOR", b"xor", b"OR", b"or"]
UNARY_WORDS = [b"NOT", b"not"]
TRUTH_WORDS = [b"TRUE", b"True", b"true", b"FALSE", b"False", b"false"]

# What follows these is token 199, 200 or 201; where it is `a`, the first two are 1.
BEFORE_199 = b"1&&" * 98 + b'"a"=='
BEFORE_200 = b"!0&&" + b"1&&" * 97 + b'"a"=='
BEFORE_201 = b"1&&" * 99 + b'"a"=='

# Runs of every sort, of which none is a word of the language.
WORDS = [
    b"a", b"z", b"A", b"Z", b"L", b"l", b"_", b"__", b"_1", b"a1", b"a0b", b"A_9", b"x_y", b"DEBUG", b"GCC5", b"NOOPT", b"two",
    # almost words of the language (R46)
    b"And", b"aND", b"Or", b"Xor", b"Not", b"nOT", b"eq", b"Eq", b"ne", b"lt", b"Le", b"gt", b"ge", b"tRUE", b"TRue", b"fALSE", b"falsE",
    b"ANDY", b"NOT1", b"TRUE_", b"TRUE0", b"XORS", b"EQEQ", b"LL", b"IN", b"LABEL", b"OFFSET_OF", b"DEFINE", b"include", b"x0", b"_0x1",
    # names of the table are words as well
    b"S", b"M", b"TRUES",
    b"x" * 64, b"x" * 65, b"x" * 255, b"x" * 256, b"x" * 257, b"x" * 500,
]

TAKEN = [
    # its own bytes, and no others
    (b'"abc" == ', b"abc", 1, 1),
    (b"'abc' == ", b"abc", 1, 1),
    (b'"abc" == ', b"ABC", 0, 1),
    (b'"abc" == ', b"ab", 0, 1),
    (b'"abc" == ', b"abcd", 0, 1),
    (b'"" == ', b"a", 0, 1),
    (b'"" != ', b"a", 1, 1),
    (b'"a " == ', b"a", 0, 1),
    (b'" a" == ', b"a", 0, 1),
    (b'"a\t" == ', b"a\t", 0, 1),
    (b'"a\x00" == ', b"a", 0, 1),
    (b'"\xe9" != ', b"e", 1, 1),
    (b"'\"a\"' == ", b"a", 0, 1),
    # beside strings of the table
    (b"$(S) == ", b"two", 1, 1),
    (b"$(S) != ", b"two", 0, 1),
    (b"$(S) EQ ", b"Two", 0, 1),
    (b"$(S) == ", b"S", 0, 1),
    (b"$(E) == ", b"a", 0, 1),
    (b"$(T) == ", b"a", 0, 1),
    (b"a.Str == ", b"pcd", 1, 1),
    (b"a.Str NE ", b"PCD", 1, 1),
    (b"$(Y) == ", b"y" * 56, 1, 1),
    (b"$(Y) == ", b"y" * 55, 0, 1),
    (b"$(Y) == ", b"y" * 57, 0, 1),
    # blanks of any sort before it and after it, or none
    (b'"a"==', b"a", 1, 1),
    (b'"a"!=', b"a", 0, 1),
    (b'"a" ==', b"a", 1, 1),
    (b'"a"== ', b"a", 1, 1),
    (b'"a"\t==\t', b"a", 1, 1),
    (b'  "a" ==  \t  ', b"a \t ", 1, 1),
    (b"'a'EQ ", b"a", 1, 1),
    (b"'a'EQ\t", b"a", 1, 1),
    (b"'a'NE ", b"b", 1, 1),
    # a comment ends it
    (b'"a" == ', b"a#b", 1, 1),
    (b'"a#b" == ', b"a#b", 0, 1),
    (b'"a" == ', b"a # b == c", 1, 1),
    (b'"a" == ', b"a#", 1, 1),
    # any symbol ends it
    (b'"a"==', b'a&&"b"==b', 1, 3),
    (b'("a"==', b"a)", 1, 1),
    (b'"a"==', b"a?1:2", 1, 2),
    (b'"a"==', b"a==1", 1, 2),
    (b'"a"!=', b"a!=1", 1, 2),
    (b'"a"==', b"b^1", 1, 2),
    # grouping and count
    (b'"a" == ', b"a == 1", 1, 2),
    (b'"a" == ', b"b == 0", 1, 2),
    (b'"a" != ', b"a != 1", 1, 2),
    (b'"a" == ', b"a ? 1 : 2", 1, 2),
    (b'"a" == ', b"b ? 1 : 2", 2, 2),
    (b'"a" == ', b"a ? 1 : 1 / 0", 1, 2),
    (b'1 ? "a" == ', b"a : 2", 1, 2),
    (b'0 ? 2 : "a" == ', b"a", 1, 2),
    (b'"a" == ', b'a && "b" == b', 1, 3),
    (b'"a" == ', b'b AND "b" == b', 0, 2),
    (b'"a" == ', b'b OR "b" == b', 1, 3),
    (b'"a" == ', b"a OR 1 / 0", 1, 2),
    (b'"a" == ', b'a XOR "a" == b', 1, 3),
    (b'"a" == ', b"a & 1", 1, 2),
    (b'"a" == ', b"a ^ 1", 0, 2),
    (b'("a" == ', b"a | 2)", 3, 2),
    (b'("a" == ', b"a || 1 / 0)", 1, 2),
    (b'("a" == ', b"a) + 1", 2, 2),
    (b'("a") == ', b"a", 1, 1),
    (b'1 + ("a" == ', b"a)", 2, 2),
    (b'-("a" == ', b"b)", 0, 2),
    (b'NOT ("a" == ', b"b)", 1, 2),
    (b'(1 ? "a" : "b") == ', b"a", 1, 2),
    (b'"a" < "b" == 1 AND "c" == ', b"c", 1, 4),
    (b"(" * 16 + b'"a" == ', b"a" + b")" * 16, 1, 1),
    # what binds tighter takes it first
    (b"1 == ", b'a < "b"', 1, 2),
    (b"0 == ", b'b < "a"', 1, 2),
    (b"1 == ", b'ab < "abc"', 1, 2),
    (b"1 == ", b'ab >= "aa"', 1, 2),
    (b"1 EQ ", b"a GT 'A'", 1, 2),
    (b"0 NE ", b"two LE $(S)", 1, 2),
    # skipped
    (b'0 AND "a" == ', b"a", 0, 1),
    (b'1 OR "a" == ', b"a", 1, 1),
    (b'0 ? "a" == ', b"a : 7", 7, 1),
    # as the last token that there can be, and the one before it; a comment may follow
    (BEFORE_199, b"a", 1, 99),
    (BEFORE_200, b"a", 1, 100),
    (BEFORE_200, b"b", 0, 100),
    (BEFORE_200, b"a \t# b", 1, 100),
    (b'"a"==', b'a&&"a"==' * 49 + b"a", 1, 99),
    # as long as it may be
    (b"'' != ", b"x" * 1018, 1, 1),
    (b'"a" == ', b"a" * 1000, 0, 1),
    (b'"' + b"x" * 510 + b'"==', b"x" * 510, 1, 1),
    (b'"' + b"x" * 510 + b'"==', b"x" * 509 + b"y", 0, 1),
    (b" " * 1017 + b"''!=", b"abc", 1, 1),
]
for word in WORDS:
    TAKEN += [
        (b'"%s" == ' % word, word, 1, 1),
        (b"'%s' != " % word, word, 0, 1),
        (b'"%s" EQ ' % word, word, 1, 1),
        (b"'%s'NE " % word, word, 0, 1),
        (b'"%sx"==' % word, word, 0, 1),
        (b'"%s"!=' % word[:-1], word, 1, 1),
    ]

REFUSED = [
    # 3: a dot after a run that is no PCD name (R44), a byte that starts nothing, another run that is no token
    (b'"a" == ', b"foo.1", 3, b".1"),
    (b'"a" == ', b"foo.", 3, b"."),
    (b'"a" == ', b"foo..b", 3, b"..b"),
    (b'"a" == ', b"foo .b", 3, b".b"),
    (b'"a" == ', b"foo.9a", 3, b".9a"),
    (b'"a" == ', b"L.1", 3, b".1"),
    (b'"a" == ', b"a@", 3, b"@"),
    (b'"a" == ', b"a @", 3, b"@"),
    (b'"a" == ', b"a\r", 3, b"\r"),
    (b'"a" == ', b"a\n", 3, b"\n"),
    (b'"a" == ', b"a\x0b", 3, b"\x0b"),
    (b'"a" == ', b"a\x00", 3, b"\x00"),
    (b'"a" == ', b"a\xe9", 3, b"\xe9"),
    (b'"a" == ', b"a-b", 3, b"b"),
    (b'"a" == ', b"a,b", 3, b",b"),
    (b'"a" == ', b"a{1}", 3, b"{1}"),
    (b'"a" == ', b"a = b", 3, b"= b"),
    (b'"a" == ', b"a === b", 3, b"= b"),
    (b'"a" == ', b"a b", 3, b"b"),
    (b'"a" == ', b"a AND b", 3, b"b"),
    (b'"a" == ', b"a < b", 3, b"b"),
    (b'"a" == ', b"a ? b : c", 3, b"b : c"),
    (b'"a" == ', b"a == (b)", 3, b"b)"),
    (b'"a" == ', b"a == b c", 3, b"c"),
    (b'"a" == ', b"a + $(a)", 3, b"$(a)"),
    (b'"a" == ', b"a == 'b", 3, b"'b"),
    (b'"a" == ', b"a == L'b", 3, b"L'b"),
    (b'"a" == ', b"a == 0x", 3, b"0x"),
    (b'"a" == ', b"a'b", 3, b"'b"),
    (b'"a" == ', b"LL'b", 3, b"'b"),
    (b'"x" == ', b"LABEL(a)", 3, b"a)"),  # R43
    (b'"x" == ', b"LABEL( a)", 3, b"a)"),  # R43
    (b'"x" == ', b"OFFSET_OF(a)", 3, b"a)"),
    # 4, 5, 6
    (b'"a" == ', b"a + 18446744073709551616", 4, b"18446744073709551616"),
    (b'"a" == ', b"a == 99999999999999999999", 4, b"99999999999999999999"),
    (BEFORE_199, b"a==1", 5, b"1"),
    (BEFORE_199, b"a==b", 5, b"b"),
    (BEFORE_199, b"a== L'b", 5, b"L'b"),
    (BEFORE_200, b"a+1", 5, b"+1"),
    (BEFORE_200, b"a b", 5, b"b"),
    (BEFORE_200, b"a.", 5, b"."),
    (BEFORE_200, b"foo.1", 5, b".1"),
    (BEFORE_200, b"L 'b'", 5, b"'b'"),
    (BEFORE_200, b"a'b", 5, b"'b"),
    (BEFORE_200, b"a\x00", 5, b"\x00"),
    (b"(" * 17 + b'"a" == ', b"a", 6, b'("a" == a'),
    (b'"a" == ', b"a + " + b"(" * 17, 6, b"("),
    # 7
    (b"== ", b"a", 7, b"== a"),
    (b"EQ ", b"a", 7, b"EQ a"),
    (b"! == ", b"a", 7, b"== a"),
    (b'"a" == == ', b"b", 7, b"== b"),
    (b'"a" == EQ ', b"b", 7, b"EQ b"),
    (b'"a" == != ', b"b", 7, b"!= b"),
    (b'"a" 1 == ', b"a", 7, b"1 == a"),
    (b'("a" == ', b"a", 7, b""),
    (b'1 ? "a" == ', b"a", 7, b""),
    (b'"a" == ', b"a == b)", 7, b")"),
    (b'"a" == ', b"a )", 7, b")"),
    (b'"a" == ', b"a 1", 7, b"1"),
    (b'"a" == ', b"a 'b'", 7, b"'b'"),
    (b'"a" == ', b"a'b'", 7, b"'b'"),
    (b'"a" == ', b"a L'b'", 7, b"L'b'"),
    (b'"a" == ', b"L 'b'", 7, b"'b'"),  # R42
    (b'"a" == ', b"LL'b'", 7, b"'b'"),
    (b'"a" == ', b"l'b'", 7, b"'b'"),
    (b'"a" == ', b"a $(A)", 7, b"$(A)"),
    (b'"a" == ', b"a$(A)", 7, b"$(A)"),
    (b'"a" == ', b"a g.Num", 7, b"g.Num"),
    (b'"a" == ', b"a TRUE", 7, b"TRUE"),
    (b'"a" == ', b"a (1)", 7, b"(1)"),
    (b'"a" == ', b"a(1)", 7, b"(1)"),
    (b'"a" == ', b"a NOT 1", 7, b"NOT 1"),
    (b'"a" == ', b"a ! 1", 7, b"! 1"),
    (b'"a" == ', b"a : 1", 7, b": 1"),
    (b'"a" == ', b"a ? 1", 7, b""),
    (b'"a" == ', b"a +", 7, b""),
    (b'"a" == ', b"a ==  ", 7, b""),
    (b'"a" == ', b"a == # b", 7, b"# b"),
    (b"-" * 198 + b"!=", b"a", 7, b"!=a"),
    # 8
    (b'"a" == ', b"a | 1", 8, b"| 1"),
    (b'"a" == ', b"a || 1", 8, b"|| 1"),
    (b'1 | "a" == ', b"a", 8, b'| "a" == a'),
    # 9
    (b'"a" == ', b"a AND g.None", 9, b"g.None"),
    (b'"a" == ', b"a == foo.bar", 9, b"foo.bar"),
    (b"g.None == ", b"a", 9, b"g.None == a"),
    (b'0 AND g.None == ', b"a", 9, b"g.None == a"),
    # 10: a string beside another kind (R48)
    (b"1 == ", b"a", 10, b"== a"),
    (b"1 == ", b"foo", 10, b"== foo"),
    (b"1 EQ ", b"a", 10, b"EQ a"),
    (b"0 != ", b"_", 10, b"!= _"),
    (b"TRUE == ", b"tRUE", 10, b"== tRUE"),
    (b'L"a" == ', b"a", 10, b"== a"),
    (b"L'a' NE ", b"a", 10, b"NE a"),
    (b"L'' == ", b"L", 10, b"== L"),
    (b"$(A) == ", b"a", 10, b"== a"),
    (b"$(NOPE) == ", b"a", 10, b"== a"),
    (b"$(W) == ", b"wide", 10, b"== wide"),
    (b"g.Num == ", b"a", 10, b"== a"),
    (b"g.Wide != ", b"w", 10, b"!= w"),
    (b"('a' == 'a') == ", b"a", 10, b"== a"),
    (b"0 AND 1 == ", b"a", 10, b"== a"),
    (b"NOT 'a' == ", b"a", 10, b"NOT 'a' == a"),
    (b'1 + "a" == ', b"a", 10, b'+ "a" == a'),
    # where no number can be a string
    (b'"a" == ', b"a + 1", 10, b"+ 1"),
    (b'"a" == ', b"a - 1", 10, b"- 1"),
    (b'"a" == ', b"a * 2", 10, b"* 2"),
    (b'"a" == ', b"a / 0", 10, b"/ 0"),
    (b'"a" == ', b"a << 1", 10, b"<< 1"),
    (b'"a" == ', b"a < 1", 10, b"< 1"),
    (b'"a" == ', b"a <= L'a'", 10, b"<= L'a'"),
    (b'"a" == ', b'a < "b"', 10, b'== a < "b"'),
    (b'"a" == ', b"a == b", 10, b"== b"),
    (b'"a" == ', b"a == 'a'", 10, b"== 'a'"),
    (b'"a" == ', b'a AND "b"', 10, b'AND "b"'),
    (b'"a" == ', b'a ? "b" : 1', 10, b'? "b" : 1'),
    (b'1 ? 2 : "a" == ', b"a == b", 10, b"== b"),
    # 11, 12
    (b'"a" == ', b"a ? 5 - 7 : 1", 11, b"- 7 : 1"),
    (b'-("a" == ', b"a)", 11, b'-("a" == a)'),
    (b'("a" == ', b"b) - 1", 11, b"- 1"),
    (b'"a" == ', b"a AND 1 / 0", 12, b"/ 0"),
    (b'1 / ("a" == ', b"b)", 12, b'/ ("a" == b)'),
]

# The same number in both editions: PCD names, words of the language, strings and comments.
NUMBERS = [
    (b'"pcd" == a.Str', 1, 1),
    (b'"pcd" != a.Str # a', 0, 1),
    (b"7 EQ g.Num", 1, 1),
    (b"3==_._", 1, 1),
    (b"1 == TRUE", 1, 1),
    (b"0 NE true", 1, 1),
    (b"1 == NOT 0", 1, 2),
    (b"0 EQ not 1", 1, 2),
    (b"'two' == $(S)", 1, 1),
    (b'"a" == "a" # == b', 1, 1),
    (b"1 # == a", 1, 0),
    (b"\"== a\" == '== a'", 1, 1),
    (b"L'a' == L\"a\"", 1, 1),
]

VECTORS = [
    # the left operand, and what is alone (R45)
    (b"", b'a == "a"', 3),
    (b"", b"a == a", 3),
    (b"", b"a EQ b", 3),
    (b"", b"a != 1", 3),
    (b"", b"a", 3),
    (b"", b"DEBUG", 3),
    # not the next token (R45)
    (b'"a" == (', b"a)", 3),
    (b'"a" == ( ', b"a )", 3),
    (b'"a" == ((', b"a))", 3),
    (b'"a" == !', b"a", 3),
    (b'"a" == ! ', b"a", 3),
    (b'"a" == NOT ', b"a", 3),
    (b'"a" EQ - ', b"a", 3),
    (b'"a" NE ~', b"a", 3),
    (b'"a" == ) ', b"a", 3),
    (b'"a" == ? ', b"a", 3),
    (b'"a" == "a" ', b"a", 3),
    (b'"a" == 1 ', b"a", 3),
    (b'"a" == $(A) ', b"a", 3),
    (b'"a" == a.b ', b"c", 3),
    (b'"a" == TRUE ', b"a", 3),
    (b'"a" == AND ', b"a", 3),
    (b'"a" == L\'b\' ', b"a", 3),
    (b'"a" ', b"a", 3),
    (b"1 ", b"a", 3),
    (b"$(A) ", b"a", 3),
    (b"(", b"a)", 3),
    (b") ", b"a", 3),
    (b"1 ? ", b"a : b", 3),
    (b"1 ? 2 : ", b"a", 3),
    # no such operator
    (b'"a" ', b"= a", 3),
    (b'"a" ', b"=a", 3),
    (b'"a" ==', b"= a", 3),
    (b'"a" !=', b"= a", 3),
    (b'"a" ! ', b"= a", 3),
    (b"'a' ", b"EQa", 3),
    (b"'a'", b"EQa", 3),
    (b"'a' ", b"NE_a", 3),
    (b"'a' ", b"eq a", 3),
    (b"'a' ", b"Ne a", 3),
    # no such run
    (b'"a" == ', b"1a", 3),
    (b'"a" == ', b"9_", 3),
    (b'"a" == ', b"007", 3),
    (b'"a" == ', b"0x", 3),
    (b'"a" == ', b"0xG", 3),
    (b'"a" == ', b".a", 3),
    (b'"a" == ', b"@a", 3),
    (b'"a" == ', b"\xe9", 3),
    (b'"a" == ', b"\x00a", 3),
    (b'"a" == ', b"\ra", 3),
    (b'"a" == ', b"$a", 3),
    (b'"a" == ', b"$(a)", 3),
    (b'"a" == ', b"$a.b", 3),
    # a wide string without its end is one bad token (R42), a wide string is one
    (b'"a" == ', b"L'b", 3),
    (b'"a" == ', b'L"b', 3),
    (b'"a"==', b"L'", 3),
    (b'"a" != ', b"L'b\"", 3),
    (b'"a" EQ ', b"L'b # c", 3),
    (b'"a" NE ', b"L\"b\rc\"", 3),
    (BEFORE_199, b"L'b", 3),
    (BEFORE_200, b"L'b", 3),
    (BEFORE_201, b"L'b", 5),
    (b'"a" ', b"== L'a'", 10),
    (b"'a' ", b'NE L"a"', 10),
    # PCD names
    (b'"a" == ', b"foo.bar", 9),
    (b'"a" == ', b"a.b", 9),
    (b'"a" EQ ', b"AND.x", 9),
    (b'"a" NE ', b"TRUE.x", 9),
    (b'"a" != ', b"L.x", 9),
    (b'"a"==', b"_._a", 9),
    (b'"a" == foo.bar', b".baz", 3),
    (b'"a" == foo.bar', b".1", 3),
    (b'"a" ', b"== g.Num", 10),
    (b'"a" ', b"== g.Wide", 10),
    # nothing follows, and what follows token 200 is 5 whatever it is
    (b'"a" ==', b"", 7),
    (b'"a" == ', b"", 7),
    (b'"a" == ', b"# a", 7),
    (BEFORE_201, b"a", 5),
    (BEFORE_201 + b" \t", b"a", 5),
    (b"-" * 199 + b"EQ ", b"a", 5),
    # a fault before it
    (b"", b"@ == a", 3),
    (b"", b'"a == b', 3),
    (b"", b"$(a) == b", 3),
    (b"", b"18446744073709551616 == a", 4),
    (b'"a" == ', b"18446744073709551616 == a", 4),
    (b"", b'"a" == a' + b" " * 1017, 2),
    (b"", b"'' != " + b"x" * 1019, 2),
]
VECTORS += [(b'"a" %s ' % operator, b"a", 3) for operator in OTHERS]
# Words of the language stay what they are (R46).
for operator in OPERATORS:
    VECTORS += [(b'"%s" %s ' % (word, operator), word, 7) for word in BINARY_WORDS]
    VECTORS += [(b'"%s" %s %s' % (word, operator, word), b"", 7) for word in UNARY_WORDS]
    VECTORS += [(b'"%s" ' % word, operator + b" " + word, 10) for word in TRUTH_WORDS]


def placed(front, back, number, rest):
    """A refused expression, the number and offset of the old edition's refusal, and the offset of the new one's."""
    text = front + back
    if not text.endswith(rest):
        raise AssertionError("%r does not end with %r" % (text, rest))
    return text, (number, len(text) - len(rest)), len(front)


# Expressions with the old edition's number and count, and with its refusal's number and offset; then the offset of the new edition's 3.
ACCEPTED_IN_OLD = [(front + back, number, count, len(front)) for front, back, number, count in TAKEN]
REFUSED_IN_OLD = [placed(*each) for each in REFUSED]
