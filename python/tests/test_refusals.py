"""Every refusal, from every call that can give it, with its line and offset; and the exception itself."""

from __future__ import annotations

import copy
import itertools
import pickle
import unittest

from korzhinay import MEANINGS, Datum, Edition, Refused, Table, Token, check_table, evaluate, field, raw, select, tokens

from .outcome import outcome, place

# Of an expression: the number, the input, and the offset.
EXPRESSIONS = [
    (2, " " * 1025, 0),
    (3, "1 @", 2),
    (4, "1 + 18446744073709551616", 4),
    (5, "+" * 201, 200),
    (6, "(" * 17, 16),
    (7, "1 2", 2),
    (8, "1 | 2", 2),
    (9, "1 + g.Missing", 4),
    (10, '0 AND "a"', 2),
    (11, "1 << 64", 2),
    (12, "10 / (1 - 1)", 3),
]
# Of a file: the number, the input, and the line.
FILES = [
    (13, b"x\n!if 2\n!endif", 2),
    (13, b"!if 'a'\n!endif", 1),
    (14, b"x" * 65537, 0),
    (15, b"\n" * 4097, 0),
    (17, b"\n" + b"x" * 1025, 2),
    (18, b"!if 0\n!iff 1\n!endif", 2),
    (19, b"\n\n!else", 3),
    (20, b"!if 0\n" * 17, 17),
    (21, b"!if 1\n!if 0\n", 2),
    (22, b"!else\n".join([b"!if 1\n", b"!endif x\n"]), 3),
    (22, b"x\n  DEFINE a = 1\n", 2),
    (27, b"".join(b"DEFINE N%02d = 1\n" % each for each in range(65)), 65),
    (28, b"x\nDEFINE A = '%s'" % (b"y" * 57), 2),
]
# Of a field: the number, and the arguments.
FIELDS = [(23, ("1", 6)), (24, ("1", Datum.VOID)), (25, ("2", Datum.BOOLEAN))]

FRONT = b"x\n  !if "


class Numbers(unittest.TestCase):
    def test_expressions(self) -> None:
        for edition, (number, expression, offset) in itertools.product(Edition, EXPRESSIONS):
            with self.subTest(number, edition=edition):
                self.assertEqual(outcome(evaluate, expression, edition=edition), (number, 0, offset))
                self.assertEqual(outcome(field, expression, Datum.UINT8, edition=edition), (number, 0, offset))
                if number <= 6:
                    self.assertEqual(outcome(tokens, expression, edition=edition), (number, 0, offset))

    def test_expressions_in_files(self) -> None:
        for edition, (number, expression, offset) in itertools.product(Edition, EXPRESSIONS):
            # A line is too short for 2, and bars need no parentheses.
            wanted = {2: (17, 2, 0), 8: (13, 2, 0)}.get(number, (number, 2, offset + len("  !if ")))
            with self.subTest(number, edition=edition):
                self.assertEqual(outcome(select, FRONT + expression.encode() + b"\r\n!endif", edition=edition), wanted)

    def test_expressions_of_define_lines(self) -> None:
        for edition, (number, expression, offset) in itertools.product(Edition, EXPRESSIONS):
            # Here bars need their parentheses.
            wanted = (17, 2, 0) if number == 2 else (number, 2, offset + len("\tDEFINE A = "))
            with self.subTest(number, edition=edition):
                self.assertEqual(outcome(select, b"x\n\tDEFINE A = %s\r\n" % expression.encode(), edition=edition), wanted)

    def test_files(self) -> None:
        for edition, (number, file, line) in itertools.product(Edition, FILES):
            with self.subTest(number, edition=edition):
                self.assertEqual(outcome(select, file, edition=edition), (number, line, 0))

    def test_fields(self) -> None:
        for edition, (number, given) in itertools.product(Edition, FIELDS):
            with self.subTest(number, edition=edition):
                self.assertEqual(outcome(field, *given, edition=edition), (number, 0, 0))
        self.assertEqual(outcome(field, "1", Datum.UINT16, room=1), (26, 0, 0))

    def test_tables(self) -> None:
        self.assertEqual(outcome(check_table, b"x"), (1, 0, 0))
        self.assertEqual(outcome(Table.from_bytes, b"x"), (1, 0, 0))

    def test_too_few_marks_are_never_lent(self) -> None:
        for edition in Edition:
            self.assertEqual(raw.select(0, b"\n", b"", edition), (16, 0, 0, 0, b""))
        self.assertEqual(select(b"\n" * 4096).lines, 4096)

    def test_every_number_is_here(self) -> None:
        numbers = {number for number, *_ in EXPRESSIONS + FILES + FIELDS}
        self.assertEqual(numbers | {1, 16, 26}, set(MEANINGS))


class Exceptions(unittest.TestCase):
    def test_as_text(self) -> None:
        for refused, text in [
            (Refused(12, offset=2), "refused (12): zero divisor, at offset 2"),
            (Refused(3), "refused (3): no token can be read at some byte, at offset 0"),
            (Refused(12, 4, 6), "refused (12): zero divisor, in line 4 at offset 6"),
            (Refused(18, 2), "refused (18): unknown directive, in line 2"),
            (Refused(14), "refused (14): the file is longer than 65,536 bytes"),
            (Refused(27, 65), "refused (27): DEFINE lines set more than 64 macros, in line 65"),
            (Refused(99), "refused (99): unknown refusal"),
        ]:
            self.assertEqual(str(refused), text)

    def test_as_a_call(self) -> None:
        self.assertEqual(repr(Refused(12, line=4, offset=6)), "Refused(12, 4, 6, ())")

    def test_copies(self) -> None:
        with self.assertRaises(Refused) as caught:
            tokens("1 @")
        for again in copy.copy(caught.exception), pickle.loads(pickle.dumps(caught.exception)):
            self.assertEqual((place(again), again.tokens), (place(caught.exception), caught.exception.tokens))
            self.assertIsInstance(again.tokens[0], Token)

    def test_it_is_no_error_of_a_value(self) -> None:
        # A ValueError says what no table can hold; a caller can tell the two apart.
        self.assertFalse(issubclass(Refused, ValueError))

    def test_no_other_call_has_tokens(self) -> None:
        with self.assertRaises(Refused) as caught:
            evaluate("1 @")
        self.assertEqual(caught.exception.tokens, ())
