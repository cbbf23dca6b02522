"""Values of expressions: numbers, strings and wide strings, and how many operators were applied."""

from __future__ import annotations

import unittest
from typing import Any, List, Tuple

from korzhinay import Content, Kind, Table, Value, Wide, evaluate

from .outcome import outcome

# Expressions with their numbers and counts of operators.
NUMBERS = [
    ("1 + 2 * 3", 7, 2),
    ("10 - 4 - 3", 3, 2),
    ("2 == 2 == 2", 0, 2),
    ("6 & 3 == 3", 0, 2),
    ("NOT 0 == 0", 0, 2),
    ("0 AND 1 / 0", 0, 1),
    ("(1 | 2)", 3, 1),
    ('"thirty" < "thirty1"', 1, 1),
    ("0xFFFFFFFFFFFFFFFF", 2**64 - 1, 0),
    ("TRUE", 1, 0),
    ("$(NOPE)", 0, 0),
    ("(1 ? 2 : 1 / 0) # a comment", 2, 1),
]
REFUSED = [('0 AND "a"', (10, 0, 2)), ("1 | 2", (8, 0, 2)), ("1 << 64", (11, 0, 2)), ("", (7, 0, 0)), ("1 +", (7, 0, 3))]
TABLE = Table(
    {"g.Num": 7, "g.Str": "pcd", "g.Wide": Wide(b"\xff")},
    A=2,
    E=b"",
    F=Wide(b""),
    S=b"a\0'\"\r\n",
    W=Wide(b"wide"),
)
# Expressions over the table, with what they hold.
CONTENTS: List[Tuple[str, Content]] = [
    ('"in the expression"', b"in the expression"),
    ("'a\"b'", b'a"b'),
    ('L"wide"', Wide(b"wide")),
    ("''", b""),
    ("L''", Wide(b"")),
    ("$(A)", 2),
    ("$(E)", b""),
    ("$(F)", Wide(b"")),
    ("$(S)", b"a\0'\"\r\n"),
    ("$(W)", Wide(b"wide")),
    ("g.Num", 7),
    ("g.Str", b"pcd"),
    ("g.Wide", Wide(b"\xff")),
    ("$(A) == 2 ? $(S) : 'no'", b"a\0'\"\r\n"),
    ("$(A) == 3 ? $(S) : 'no'", b"no"),
    ("$(A) == 2 ? $(W) : L'no'", Wide(b"wide")),
]


class Evaluate(unittest.TestCase):
    def test_numbers(self) -> None:
        for expression, number, operators in NUMBERS:
            with self.subTest(expression):
                self.assertEqual(outcome(evaluate, expression), Value(number, operators))

    def test_refusals(self) -> None:
        for expression, wanted in REFUSED:
            with self.subTest(expression):
                self.assertEqual(outcome(evaluate, expression), wanted)

    def test_contents(self) -> None:
        for expression, content in CONTENTS:
            with self.subTest(expression):
                self.assertEqual(evaluate(expression, TABLE).content, content)

    def test_a_content_goes_back_into_a_table(self) -> None:
        for expression, content in CONTENTS:
            with self.subTest(expression):
                again = Table(AGAIN=evaluate(expression, TABLE).content)
                self.assertEqual(evaluate("$(AGAIN)", again), Value(content, 0))

    def test_bytes_str_and_buffers_are_the_same(self) -> None:
        ways: List[Any] = [b"'\xc3\xa9'", "'\u00e9'", bytearray(b"'\xc3\xa9'"), memoryview(b"'\xc3\xa9'")]
        for given in ways:
            with self.subTest(type(given)):
                self.assertEqual(evaluate(given).string, b"\xc3\xa9")

    def test_a_str_gives_back_the_bytes_that_python_escaped_in_it(self) -> None:
        self.assertEqual(evaluate(b"'\xff'".decode("utf-8", "surrogateescape")).string, b"\xff")
        with self.assertRaises(UnicodeEncodeError):
            evaluate("'\ud800'")

    def test_other_types(self) -> None:
        for given in 7, None, 1.5, ["1"]:
            with self.subTest(given), self.assertRaises(TypeError):
                evaluate(given)  # type: ignore[arg-type]


class Values(unittest.TestCase):
    def test_a_number(self) -> None:
        value = evaluate("1 + 1")
        self.assertEqual((value.kind, value.number, value.operators), (Kind.NUMBER, 2, 1))
        with self.assertRaisesRegex(TypeError, "^the value is no string: 2$"):
            value.string

    def test_strings(self) -> None:
        for text, kind, shown in ("'a'", Kind.STRING, r"b'a'"), ("L'a'", Kind.WIDE, r"Wide\(string=b'a'\)"):
            value = evaluate(text)
            self.assertEqual((value.kind, value.string), (kind, b"a"))
            with self.assertRaisesRegex(TypeError, "^the value is no number: %s$" % shown):
                value.number

    def test_a_number_is_true_unless_it_is_0(self) -> None:
        self.assertEqual([bool(evaluate(text)) for text in ("0", "1", "2")], [False, True, True])
        for text in "''", "'a'", "L'a'":
            with self.subTest(text), self.assertRaises(TypeError):
                bool(evaluate(text))

    def test_the_three_kinds_differ(self) -> None:
        self.assertEqual(len({evaluate(text) for text in ("1", "'1'", "L'1'", '"1"')}), 3)

    def test_nothing_can_be_changed(self) -> None:
        with self.assertRaises(AttributeError):
            evaluate("1").operators = 2  # type: ignore[misc]
