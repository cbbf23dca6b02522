"""The vectors of the library, worked out by hand from its rules (tests/vectors): the module gives the same answers, in both editions."""

from __future__ import annotations

import unittest
from itertools import product
from typing import Any, Tuple

from korzhinay import Edition, Refused, Selection, Table, Value, Wide, check_table, evaluate, field, select, tokens
from korzhinay.codes import Memory

from . import checkout  # The vectors are found by it.
from .outcome import outcome

import editions
import evaluation
import field as fields
import offsets
import positions
import selection
import tables
import tokens as scans


def value(answer: Tuple[int, ...], expression: bytes, table: bytes) -> Value:
    """The value that the six numbers of an answer are."""
    kind, number, operators, memory, start, length = answer
    string = (expression if memory == Memory.EXPRESSION else table)[start : start + length]
    content: Any = {tables.NUMBER: number, tables.STRING: string, tables.WIDE: Wide(string)}[kind]
    return Value(content, operators)


class Vectors(unittest.TestCase):
    def test_they_are_those_of_the_repository(self) -> None:
        for module in editions, evaluation, fields, offsets, positions, selection, tables, scans:
            self.assertTrue(str(module.__file__).startswith(str(checkout.ROOT / "tests" / "vectors")))

    def test_editions(self) -> None:
        self.assertEqual({edition.name.lower(): edition for edition in Edition}, editions.EDITIONS)

    def test_tokens(self) -> None:
        for edition, vector in product(Edition, scans.VECTORS):
            expression, *_ = vector
            try:
                number, offset, found = 0, 0, tokens(expression, edition=edition)
            except Refused as refused:
                number, offset, found = refused.number, refused.offset, refused.tokens
            got = [(token.code, token.start, token.length, token.value) for token in found]
            self.assertEqual((number, offset, got), editions.wanted_in(edition, scans.answer(*vector)), expression)

    def test_places_of_refused_tokens(self) -> None:
        for edition, (expression, refusal) in product(Edition, offsets.TOKENS):
            number, offset = editions.wanted_in(edition, refusal)
            answer = outcome(tokens, expression, edition=edition)
            self.assertEqual(answer if number else (0, 0, 0), (number, 0, offset), expression)

    def test_tables(self) -> None:
        for records, is_good in tables.TABLES:
            self.assertEqual(outcome(check_table, records), None if is_good else (1, 0, 0))

    def test_lookups(self) -> None:
        for records, name, (kind, number, length) in tables.LOOKUPS + positions.LOOKUPS:
            string = records[number : number + length]
            wanted: Any = {tables.NUMBER: number, tables.STRING: string, tables.WIDE: Wide(string), tables.MISSING: None}[kind]
            self.assertEqual(Table.from_bytes(records).lookup(name), wanted, name)

    def test_tables_are_built_again_from_what_they_hold(self) -> None:
        for records, is_good in tables.TABLES:
            if is_good:
                self.assertEqual(bytes(Table(dict(Table.from_bytes(records)))), records)

    def test_values(self) -> None:
        for edition, (expression, records, answers) in product(Edition, evaluation.VECTORS):
            refusal, offset, answer = editions.wanted_in(edition, answers)
            wanted = (refusal, 0, offset) if refusal else value(answer, expression, records)
            self.assertEqual(outcome(evaluate, expression, records, edition=edition), wanted, expression)

    def test_fields(self) -> None:
        for edition, (expression, records, datum, room, answers) in product(Edition, fields.VECTORS):
            wanted = editions.wanted_in(edition, answers)
            if isinstance(wanted, tuple):
                number, offset = wanted
                wanted = number, 0, offset
            self.assertEqual(outcome(field, expression, datum, records, room=room, edition=edition), wanted, expression)

    def test_selections(self) -> None:
        for edition, (file, records, _, answers) in product(Edition, selection.VECTORS):
            refusal, line, offset, marks, operators = editions.wanted_in(edition, answers)
            # Too few marks are never lent here.
            if refusal != 16:
                wanted = (refusal, line, offset) if refusal else Selection(marks, operators, file)
                self.assertEqual(outcome(select, file, records, edition=edition), wanted, file)
