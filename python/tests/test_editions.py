"""The two editions: what the old one takes and the new one refuses, how a call chooses, and what is no edition."""

from __future__ import annotations

import unittest
from typing import Any, Callable, Dict, List, Tuple

from korzhinay import Code, ContentLike, Datum, Edition, Refused, Selection, Token, Value, evaluate, field, select, tokens

from .outcome import outcome

TABLE: Dict[str, ContentLike] = {"BOARD": "SPAR", "WEEK": 50}
WORD, NAME = "$(BOARD) == SPAR", b"!ifdef $(BOARD)\nx\n!endif"
CONDITION = b"!if $(BOARD) == SPAR\nx\n!endif"
# Of each call that takes an edition: its arguments, and its answers in the old edition and in the new one.
ANSWERS: List[Tuple[Callable[..., Any], List[Any], Any, Any]] = [
    (evaluate, [WORD, TABLE], Value(1, 1), (3, 0, 12)),
    (evaluate, ["$(WEEK) == SPAR", TABLE], (10, 0, 8), (3, 0, 11)),
    (field, [WORD, Datum.UINT16, TABLE], b"\1\0", (3, 0, 12)),
    (select, [CONDITION, TABLE], Selection(b"\4\1\5", 1, CONDITION), (3, 1, 16)),
    (select, [NAME, TABLE], Selection(b"\4\1\5", 0, NAME), (22, 1, 0)),
]
# The same in both.
ALIKE: List[Tuple[Callable[..., Any], List[Any], Any]] = [
    (evaluate, ['$(BOARD) == "SPAR"', TABLE], Value(1, 1)),
    (evaluate, ["SPAR == $(BOARD)", TABLE], (3, 0, 0)),
    (evaluate, ["$(BOARD) == AND", TABLE], (7, 0, 12)),
    (evaluate, ["$(BOARD) == g.Pcd", TABLE], (9, 0, 12)),
    (select, [b"!ifdef BOARD\n!endif", TABLE], Selection(b"\4\5", 0, b"!ifdef BOARD\n!endif")),
    (select, [b"!ifdef $(BOARD\n!endif", TABLE], (22, 1, 0)),
]


class Editions(unittest.TestCase):
    def test_answers(self) -> None:
        for call, given, old, new in ANSWERS:
            with self.subTest(call=call.__name__, given=given):
                self.assertEqual(outcome(call, *given, edition=Edition.OLD), old)
                self.assertEqual(outcome(call, *given, edition=Edition.NEW), new)

    def test_the_old_one_is_the_default(self) -> None:
        for call, given, old, _ in ANSWERS:
            with self.subTest(call=call.__name__, given=given):
                self.assertEqual(outcome(call, *given), old)

    def test_what_is_alike(self) -> None:
        for call, given, wanted in ALIKE:
            for edition in Edition:
                with self.subTest(call=call.__name__, given=given, edition=edition):
                    self.assertEqual(outcome(call, *given, edition=edition), wanted)

    def test_tokens(self) -> None:
        read = (Token(Code.MACRO, 0, 8, 0, b"$(BOARD)"), Token(Code.EQUAL, 9, 2, 0, b"=="))
        self.assertEqual(tokens(WORD), (*read, Token(Code.BARE, 12, 4, 0, b"SPAR")))
        with self.assertRaises(Refused) as caught:
            tokens(WORD, edition=Edition.NEW)
        self.assertEqual((caught.exception.number, caught.exception.offset, caught.exception.tokens), (3, 12, read))

    def test_a_number_is_an_edition_too(self) -> None:
        named: Dict[int, Edition] = {0: Edition.NEW, 1: Edition.OLD}
        for number, edition in named.items():
            self.assertEqual(outcome(evaluate, WORD, TABLE, edition=number), outcome(evaluate, WORD, TABLE, edition=edition))

    def test_what_is_no_edition(self) -> None:
        # 256 and 257 would be the new and the old one if they were cut to a byte.
        for number in 2, 3, 255, 256, 257, -1, 2**64, "old", None, 0.5:
            for call, given, *_ in ANSWERS:
                with self.subTest(call=call.__name__, number=number), self.assertRaises(ValueError):
                    call(*given, edition=number)
            with self.assertRaises(ValueError):
                tokens(WORD, edition=number)  # type: ignore[arg-type]

    def test_an_edition_has_its_name_in_a_call(self) -> None:
        # A third argument by its place could be meant for something else.
        with self.assertRaises(TypeError):
            evaluate(WORD, TABLE, Edition.NEW)  # type: ignore[misc]
        with self.assertRaises(TypeError):
            select(NAME, TABLE, Edition.NEW)  # type: ignore[misc]
