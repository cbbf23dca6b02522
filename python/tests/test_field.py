"""Fields of every datum."""

from __future__ import annotations

import unittest

from korzhinay import Datum, Wide, field

from .outcome import outcome

# Of each datum with numbers: how many bytes it has, and its largest number.
SIZES = {
    Datum.BOOLEAN: (1, 1),
    Datum.UINT8: (1, 2**8 - 1),
    Datum.UINT16: (2, 2**16 - 1),
    Datum.UINT32: (4, 2**32 - 1),
    Datum.UINT64: (8, 2**64 - 1),
}
STRINGS = [("'SPAR'", b"SPAR\0"), ("L'SPAR'", b"S\0P\0A\0R\0\0\0"), ("''", b"\0"), ("L''", b"\0\0")]
STRINGS += [("$(S)", b"a\0b\0"), ("$(W)", b"w\0\0\0")]


class Field(unittest.TestCase):
    def test_every_datum_is_here(self) -> None:
        self.assertEqual({Datum.VOID, *SIZES}, set(Datum))

    def test_numbers(self) -> None:
        for datum, (size, largest) in SIZES.items():
            for number in {0, 1, largest, 0x0102030405060708 & largest}:
                with self.subTest(datum=datum, number=number):
                    self.assertEqual(field(str(number), datum), number.to_bytes(size, "little"))

    def test_one_more_than_the_largest_number(self) -> None:
        for datum, (_, largest) in SIZES.items():
            with self.subTest(datum):
                self.assertEqual(outcome(field, str(largest + 1), datum), (4 if datum == Datum.UINT64 else 25, 0, 0))

    def test_strings(self) -> None:
        for expression, wanted in STRINGS:
            with self.subTest(expression):
                self.assertEqual(field(expression, Datum.VOID, {"S": b"a\0b", "W": Wide(b"w")}), wanted)

    def test_kinds_that_do_not_suit(self) -> None:
        self.assertEqual(outcome(field, "1", Datum.VOID), (24, 0, 0))
        for datum in SIZES:
            for expression in "'1'", "L'1'":
                with self.subTest(datum=datum, expression=expression):
                    self.assertEqual(outcome(field, expression, datum), (24, 0, 0))

    def test_numbers_that_are_no_datum(self) -> None:
        # 256 and 257 would be VOID and BOOLEAN if they were cut to a byte.
        for datum in 6, 255, 256, 257, -1, 2**64, -(2**64):
            with self.subTest(datum):
                self.assertEqual(outcome(field, "1", datum), (23, 0, 0))

    def test_an_expression_is_refused_before_its_datum(self) -> None:
        self.assertEqual(outcome(field, "1 / 0", 256), (12, 0, 2))

    def test_room(self) -> None:
        for room in -(2**70), -1, 0, 1, 4:
            self.assertEqual(outcome(field, "'SPAR'", Datum.VOID, room=room), (26, 0, 0))
        for room in 5, 6, 2044, 2045, 2**70:
            self.assertEqual(field("'SPAR'", Datum.VOID, room=room), b"SPAR\0")
