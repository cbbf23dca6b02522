"""Expressions, and the table that they are evaluated under, for the tests of --json: answers that JSON has to escape, and every sort of
refusal."""
from records import NUMBERS, OTHERS, PCD, STRINGS, record
from unseen import assigned, is_unseen

TABLE = b"".join(NUMBERS + STRINGS + OTHERS + [record(b"H", 1, "\u2028\x1b\x00\\\"é\U000e0041\x7f".encode())] + PCD)

# What is inside quotes: text that only looks escaped, unseen characters, characters above U+FFFF, bytes that are not UTF-8.
INSIDE = [b"", b"a", b"\\", b"\\u0041", b"\\x1B", b"/", b"\t", b"\x1b[2J", b"\x01\x7f", "é\u65e5\U0001f600".encode()]
INSIDE += ["\u2028\u2029\u202e\ufeff".encode(), "\U000e0041\U000e0001\u0085\u009b\u00ad".encode(), b"x" * 900]
INSIDE += [b"\xff", b"\xe9t\xe9", b"\xe2\x82", b"\xe2\x82\xac\xe2\x82", b"\xf0\x9f\x98", b"\xc0\xaf", b"\xed\xa0\x80", b"\xf4\x90\x80\x80"]
# No argument holds a NUL, and no string a CR.
INSIDE += ["".join(character for character in assigned() if is_unseen(character) and character not in "\0\r").encode()]
LITERALS = [start + quote + text + quote for text in INSIDE for start in (b"", b"L") for quote in (b"'", b'"')]
LITERALS += [b"\"it's\"", b"L'\"'"]

NUMBERED = [b"0", b"18446744073709551615", b"0xFFFFFFFFFFFFFFFF - 1", b"~0", b"1 + 2 * 3", b"1 AND 0", b"0 AND 1", b"1 ? 2 : 3", b"(1 | 2)"]
NUMBERED += [b"not 0", b"TRUE", b"255", b"256", b"65536", b"4294967296", b"$(UNSET)", b"$(A)", b"$(B)"]
NAMED = [b"a.B", b"$(H)"] + [b"$(%s)" % one[:64].rstrip(b"\0") for one in STRINGS + OTHERS]

REFUSED = [b"", b" ", b"# nothing", b"1 / 0", b"1 +", b"1 - 2", b"18446744073709551616", b"1 | 2", b"x.Y", b"'a' + 1", b"$(CC) * 2", b"1 $"]
REFUSED += [b"'open", b"=", b"\xe9", "é".encode(), "\u200b".encode(), b"\x1b", b"1 ? 'a' : 2"]
REFUSED += [b"(" * 17 + b"1", b"1 " * 201, b"x" * 1025]

EXPRESSIONS = LITERALS + NUMBERED + NAMED + REFUSED
