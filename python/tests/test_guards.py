"""The guards see what is written past a lent array; and every call, at its limits, writes nothing there."""

from __future__ import annotations

import unittest
from ctypes import c_uint8, c_uint64

from korzhinay import Datum, Edition, Refused, Table, evaluate, field, raw, select, tokens

from .guards import guarded
from .outcome import outcome


class Guarded(unittest.TestCase):
    def test_calls_at_their_limits(self) -> None:
        wide = 'L"%s"' % ("x" * 1021)
        with guarded() as guards:
            self.assertEqual(len(tokens("+" * 200)), 200)
            self.assertEqual(outcome(tokens, "+" * 201), (5, 0, 200))
            self.assertEqual(len(field(wide, Datum.VOID)), 2044)
            self.assertEqual(outcome(field, wide, Datum.VOID, room=2043), (26, 0, 0))
            self.assertEqual(outcome(field, "1", Datum.UINT8, room=0), (26, 0, 0))
            self.assertEqual(select(b"\n" * 4096).lines, 4096)
            self.assertEqual(outcome(select, b"\n" * 4097), (15, 0, 0))
            self.assertEqual(raw.select(0, b"\n", b"", Edition.OLD)[0], 16)
            self.assertEqual(evaluate("$(A)", Table(A="x")).string, b"x")
            # Five arrays for each scan of tokens, two for each field and each selection, one for a record and one for a value.
            self.assertEqual(len(guards.lent), 2 * 5 + 6 * 2 + 2)

    def test_bare_words_at_the_limits(self) -> None:
        longest, last = "==" + "x" * 1022, "-" * 198 + "==x"
        with guarded():
            self.assertEqual([token.length for token in tokens(longest)], [2, 1022])
            self.assertEqual(outcome(tokens, longest, edition=Edition.NEW), (3, 0, 2))
            self.assertEqual(len(tokens(last)), 200)
            self.assertEqual(outcome(tokens, last, edition=Edition.NEW), (3, 0, 200))
            self.assertEqual(field("'' != " + "x" * 1018, Datum.BOOLEAN), b"\1")
            self.assertEqual(select(b"!if '' != %s\n!endif" % (b"x" * 1014)).marks, b"\4\5")

    def test_define_lines_at_the_limits(self) -> None:
        lines = b"".join(b"DEFINE N%02d = '%s'\n" % (each, b"y" * 56) for each in range(64))
        tests = b"".join(b"!if $(N%02d) == $(N63)\n!endif\n" % each for each in range(64))
        with guarded():
            self.assertEqual(select(lines + tests).marks, b"\6" * 64 + b"\4\5" * 64)
            self.assertEqual(outcome(select, lines + b"DEFINE N64 = 1"), (27, 65, 0))
            self.assertEqual(outcome(select, lines + b"DEFINE N00 = '%s'" % (b"y" * 57)), (28, 65, 0))
            self.assertEqual(select(b"DEFINE A=$(A)+1\n" * 4096).operators, 4096)

    def test_a_malformed_table_writes_nothing_that_is_read(self) -> None:
        with guarded():
            self.assertEqual(raw.lookup(b"x", b"A")[0], 1)
            with self.assertRaises(Refused):
                Table.from_bytes(b"x")
            with self.assertRaises(ValueError):
                Table(a=1)

    def test_a_changed_guard_is_seen(self) -> None:
        for at in -1, 3:
            with self.subTest(at), self.assertRaisesRegex(AssertionError, "1 arrays lent, and 1 have changed guards"):
                with guarded() as guards:
                    lent = guards.lend(c_uint8 * 3)
                    (c_uint8 * 1).from_buffer(guards.lent[0][0], 64 + at)[0] = 1
                    self.assertEqual(len(lent), 3)

    def test_something_has_to_be_lent(self) -> None:
        with self.assertRaises(AssertionError), guarded():
            pass

    def test_an_array_of_another_length_is_not_taken(self) -> None:
        with self.assertRaises(Exception) as caught:
            raw.LIBRARY.korzhinay_lookup(b"", 0, b"", 0, (c_uint64 * 2)())
        self.assertEqual(type(caught.exception).__name__, "ArgumentError")
