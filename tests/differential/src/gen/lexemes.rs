//! Pieces that expressions are put together from.

/// Spellings of tokens, each of them good by itself.
#[rustfmt::skip]
pub const GOOD: &[&[u8]] = &[
    b"0", b"1", b"2", b"7", b"10", b"64", b"255", b"0x0", b"0X1f", b"0xABCdef",
    b"0x0000000000000000000000007", b"18446744073709551615", b"0xFFFFFFFFFFFFFFFF",
    b"TRUE", b"True", b"true", b"FALSE", b"False", b"false",
    b"\"\"", b"\"a\"", b"''", b"'a\"b'", b"\"it's # no comment\"", b"\"\\\"", b"\"\xff\x00\t\"",
    b"L\"w\"", b"L''", b"L'x # y'",
    b"$(A)", b"$(B)", b"$(FOO)", b"$(S)", b"$(W)", b"$(Z9_)", b"$(AND)",
    b"g.Num", b"g.Str", b"g.Wide", b"_a._b", b"AND.x", b"TRUE.t", b"L.L", b"not.NOT", b"a1.b2",
    b"(", b")", b"(", b")", b"?", b":", b"!", b"~", b"+", b"-", b"*", b"/", b"%", b"<<", b">>",
    b"<", b"<=", b">", b">=", b"==", b"!=", b"&", b"^", b"|", b"&&", b"||",
    b"NOT", b"not", b"LT", b"LE", b"GT", b"GE", b"EQ", b"NE", b"AND", b"and", b"XOR", b"xor",
    b"OR", b"or",
];

/// Spellings that are nearly tokens, or tokens with something wrong after them.
#[rustfmt::skip]
pub const NEARLY: &[&[u8]] = &[
    b"00", b"007", b"0x", b"0X", b"0xg", b"0x1g", b"0b1", b"1a", b"1_", b"12L", b"0_", b"1x0",
    b"18446744073709551616", b"18446744073709551620", b"99999999999999999999",
    b"184467440737095516150", b"0x10000000000000000", b"0xFFFFFFFFFFFFFFFFF",
    b"99999999999999999999z", b"0x10000000000000000g",
    b"tRUE", b"TRUE_", b"FALSE0", b"Not", b"nOT", b"And", b"aND", b"Xor", b"Or", b"lt", b"le",
    b"gt", b"ge", b"eq", b"ne", b"IN", b"LTE",
    b"L", b"LL", b"l\"a\"", b"LL\"a\"", b"L \"a\"", b"L\"", b"L'", b"L\"a'", b"_L\"a\"",
    b"A", b"_", b"a", b"foo", b"a.", b"a.1", b".a", b".", b"a..b", b"a.b.c", b"a .b", b"a. b",
    b"1.a", b"1.5", b"AND.1", b"L.\"a\"", b"a.$(A)",
    b"$", b"$(", b"$()", b"$(A", b"$(A}", b"$(a)", b"$(Ab)", b"$( A)", b"$(A )", b"$(1)",
    b"$(_A)", b"$A", b"$ (A)", b"$(A.B)", b"$((A))", b"$(A#)",
    b"\"a", b"'", b"\"a\rb\"", b"'a\nb'", b"\"a'", b"'#",
    b"=", b"===", b"!==", b"<<=", b">>>", b"<>", b"&&&", b"|||", b"! =", b"< =",
    b"\xe9", b"\x80.a", b"a.\xe9", b"A\xc0", b"\x00", b"\r", b"\n", b"#",
];

/// Bytes that no token starts with.
pub const STRAYS: &[u8] = b"@\\`{},;[]=.\r\n\x00\x0b\x0c\x7f\x80\xa0\xff";

pub const SYMBOLS: &[u8] = b"()?:!~+-*/%<>=&^|";

/// What may follow the last token without being one.
pub const TAILS: &[&[u8]] = &[b"", b" ", b"\t \t", b"#", b" # @ \" $(", b"#\r\n\xff"];

/// What may not.
#[rustfmt::skip]
pub const BAD_TAILS: &[&[u8]] = &[
    b"@", b" @", b" \"", b"1", b" 99999999999999999999", b" )", b"\r", b" $(A) #", b"\x00", b".b",
];

/// Expressions that the papers name, and a few like them.
#[rustfmt::skip]
pub const NAMED: &[&[u8]] = &[
    b"1 + 2 * 3", b"10 - 4 - 3", b"2 == 2 == 2", b"6 & 3 == 3", b"NOT 0 == 0", b"0 AND 1 / 0",
    b"0 AND \"a\"", b"1 ? 2 : 1 / 0", b"1 | 2", b"(1 | 2)", b"1 << 64", b"\"zero\" < \"three\"",
    b"\"thirty\" < \"thirty1\"", b"1 << 63", b"L\"a\" == \"a\"", b"$(NOPE) == 0", b"",
    b"$(WEEK) GE 48 AND $(WEEK) LE 5", b"99999999999999999999 @", b"@ 99999999999999999999",
    b"1 # @ 99999999999999999999", b"'a'LE'b'", b"1L'a'", b"a.b\"c\"", b"0x1 0X1",
];
