"""Each limit: what is at it is accepted, and one more is not. Where the limit is not what is looked at, something else is refused."""

from __future__ import annotations

import unittest
from typing import Any, Callable

from korzhinay import Datum, Refused, Table, Wide, check_table, evaluate, field, limits, select, tokens

from .outcome import outcome


def number(call: Callable[..., Any], *given: Any) -> int:
    """The number of a refusal, 0 for none."""
    try:
        call(*given)
    except Refused as refused:
        return refused.number
    return 0


class Limits(unittest.TestCase):
    def at_and_past(self, call: Callable[[int], Any], limit: int, at: int, past: int) -> None:
        self.assertEqual([number(call, limit), number(call, limit + 1)], [at, past])

    def test_numbers(self) -> None:
        self.at_and_past(lambda n: evaluate(str(n)), limits.MAX_NUMBER, 0, 4)

    def test_bytes_of_an_expression(self) -> None:
        self.at_and_past(lambda n: evaluate("1".ljust(n)), limits.MAX_EXPRESSION_BYTES, 0, 2)

    def test_tokens(self) -> None:
        self.at_and_past(lambda n: tokens("+" * n), limits.MAX_TOKENS, 0, 5)

    def test_parentheses(self) -> None:
        self.at_and_past(lambda n: evaluate("(" * n + "1" + ")" * n), limits.MAX_PARENTHESES, 0, 6)

    def test_bytes_of_a_file(self) -> None:
        line = b"x" * 63 + b"\n"
        self.at_and_past(lambda n: select((line * (n // 64 + 1))[:n]), limits.MAX_FILE_BYTES, 0, 14)

    def test_lines(self) -> None:
        self.at_and_past(lambda n: select(b"\n" * n), limits.MAX_LINES, 0, 15)

    def test_bytes_of_a_line(self) -> None:
        self.at_and_past(lambda n: select(b"x" * n + b"\r\n"), limits.MAX_LINE_BYTES, 0, 17)

    def test_groups(self) -> None:
        self.at_and_past(lambda n: select(b"!if 0\n" * n + b"!endif\n" * n), limits.MAX_GROUPS, 0, 20)

    def test_macros_that_are_set(self) -> None:
        lines = [b"DEFINE N%02d = 1\n" % each for each in range(limits.MAX_DEFINED + 1)]
        self.at_and_past(lambda n: select(b"".join(lines[:n])), limits.MAX_DEFINED, 0, 27)
        self.at_and_past(lambda n: select(lines[0] * n), limits.MAX_DEFINED, 0, 0)

    def test_strings_that_are_set(self) -> None:
        for front in b"", b"L":
            self.at_and_past(lambda n: select(b"DEFINE A = %s'%s'" % (front, b"y" * n)), limits.MAX_CONTENT_BYTES, 0, 28)

    def test_names_that_are_set(self) -> None:
        self.at_and_past(lambda n: select(b"DEFINE %s = 1" % (b"X" * n)), limits.MAX_NAME_BYTES, 0, 22)

    def test_records(self) -> None:
        made = [bytes(Table({"N%04d" % each: each})) for each in range(limits.MAX_RECORDS + 1)]
        self.at_and_past(lambda n: check_table(b"".join(made[:n])), limits.MAX_RECORDS, 0, 1)
        self.assertEqual({len(each) for each in made}, {limits.RECORD_BYTES})

    def test_bytes_of_a_field(self) -> None:
        longest = 'L"%s"' % ("x" * (limits.MAX_EXPRESSION_BYTES - 3))
        self.assertEqual(len(field(longest, Datum.VOID)), limits.MAX_FIELD_BYTES)
        self.assertEqual(outcome(field, longest, Datum.VOID, room=limits.MAX_FIELD_BYTES - 1), (26, 0, 0))


class TableLimits(unittest.TestCase):
    """What no record and no table can hold is a ValueError with the number."""

    def test_records(self) -> None:
        settings = {"N%04d" % each: each for each in range(limits.MAX_RECORDS)}
        self.assertEqual(dict(Table(settings)), settings)
        with self.assertRaisesRegex(ValueError, "^513 names, and a table holds 512$"):
            Table(settings, A=1)
        self.assertEqual(len(Table(settings, N0000=1)), limits.MAX_RECORDS)

    def test_names(self) -> None:
        for longest in "X" * limits.MAX_NAME_BYTES, "a." + "x" * (limits.MAX_NAME_BYTES - 2):
            self.assertEqual(dict(Table({longest: 1})), {longest: 1})
            with self.assertRaisesRegex(ValueError, "^'%sX': a name of 65 bytes, and a record holds 64$" % longest):
                Table({longest + "X": 1})

    def test_strings(self) -> None:
        longest = b"y" * limits.MAX_CONTENT_BYTES
        for kind in bytes, Wide:
            self.assertEqual(Table(A=kind(longest))["A"], kind(longest))
            with self.assertRaisesRegex(ValueError, "^'A': a string of 57 bytes, and a record holds 56$"):
                Table(A=kind(longest + b"y"))

    def test_a_string_is_measured_in_bytes(self) -> None:
        self.assertEqual(Table(A="\u00e9" * 28)["A"], b"\xc3\xa9" * 28)
        with self.assertRaisesRegex(ValueError, "^'A': a string of 58 bytes"):
            Table(A="\u00e9" * 29)

    def test_numbers(self) -> None:
        for good in 0, limits.MAX_NUMBER:
            self.assertEqual(evaluate("$(A)", {"A": good}).content, good)
        for bad in -1, limits.MAX_NUMBER + 1, -(2**64), 2**80:
            with self.assertRaisesRegex(ValueError, r"^'A': %d is no number from 0 to 2\^64 - 1$" % bad):
                Table(A=bad)
