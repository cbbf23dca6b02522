"""Random inputs to every call: each ends in an answer of its type or in one of its refusals, and in nothing else. All lent arrays have
guards, and hold other bytes than zeros before."""

from __future__ import annotations

import unittest
from collections import Counter
from concurrent.futures import ThreadPoolExecutor
from typing import Any, Dict, Tuple

from korzhinay import Edition, Selection, Table, Value, Wide, check_table, evaluate, field, select, tokens

from .guards import guarded
from .inputs import TABLE, calls
from .outcome import outcome

EXPRESSION = set(range(1, 13))
# Of each call the types of its answers and the numbers of its refusals.
ANSWERS: Dict[Any, Tuple[Any, Any]] = {
    tokens: (tuple, set(range(2, 7))),
    evaluate: (Value, EXPRESSION),
    field: (bytes, EXPRESSION | set(range(23, 26))),
    select: (Selection, {*range(1, 23), 27, 28} - {2, 16}),
    check_table: (type(None), {1}),
    Table.from_bytes: (Table, {1}),
    TABLE.lookup: ((int, bytes, Wide, type(None)), set()),
}
COUNT = 12000


def is_refusal(answer: Any) -> bool:
    """Whether an outcome is the number, line and offset of a refusal; tokens are a tuple as well."""
    return isinstance(answer, tuple) and len(answer) == 3 and isinstance(answer[0], int)


class Random(unittest.TestCase):
    def test_every_call_ends_in_an_answer_or_a_refusal(self) -> None:
        met: Counter[Any] = Counter()
        for call, given, named in calls(1, COUNT):
            with self.subTest(call=call, given=given, **named):
                answer = outcome(call, *given, **named)
                kinds, numbers = ANSWERS[call]
                if is_refusal(answer):
                    self.assertIn(answer[0], numbers)
                    met[answer[0]] += 1
                else:
                    self.assertIsInstance(answer, kinds)
                    met[call] += 1
        # The inputs are worth something: every call is answered, and every refusal is met for which enough is lent.
        self.assertEqual(set(met), {*ANSWERS, *range(1, 26), 27, 28} - {16})

    def test_guards_and_what_was_in_lent_arrays_before(self) -> None:
        made = list(calls(2, COUNT // 4))
        plain = [outcome(call, *given, **named) for call, given, named in made]
        with guarded():
            self.assertEqual([outcome(call, *given, **named) for call, given, named in made], plain)

    def test_what_the_new_edition_accepts_the_old_one_accepts_alike(self) -> None:
        met: Counter[Any] = Counter()
        for call, given, named in calls(4, COUNT):
            if named:
                new, old = (outcome(call, *given, edition=edition) for edition in (Edition.NEW, Edition.OLD))
                with self.subTest(call=call, given=given):
                    # Only what the new edition refuses with 3, or with 22 in a file, can be another answer in the old one.
                    if not is_refusal(new) or new[0] not in (3, 22):
                        self.assertEqual(old, new)
                met[call, old == new] += 1
        # Both are met of each call: the same answer, and another one.
        self.assertEqual(len(met), 8)

    def test_threads(self) -> None:
        made = list(calls(3, COUNT // 4))
        plain = [outcome(call, *given, **named) for call, given, named in made]
        with ThreadPoolExecutor(8) as threads:
            waiting = [threads.submit(outcome, call, *given, **named) for call, given, named in made]
            self.assertEqual([each.result() for each in waiting], plain)
