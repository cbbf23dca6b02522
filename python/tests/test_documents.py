"""The examples of the page and of the docstrings."""

from __future__ import annotations

import doctest
import importlib
import unittest
from typing import List, Tuple

import korzhinay

from .checkout import ROOT

from sessions import examples, run

README = "python/README.md"


def run_examples(tests: List[doctest.DocTest]) -> Tuple[int, str]:
    """How many examples there are, and what is said of those that fail."""
    said: List[str] = []
    runner = doctest.DocTestRunner(verbose=False)
    for test in tests:
        runner.run(test, out=said.append)
    return sum(len(test.examples) for test in tests), "".join(said)


class Documents(unittest.TestCase):
    def test_calls_of_the_page(self) -> None:
        text = (ROOT / README).read_text(encoding="utf-8")
        count, said = run_examples([doctest.DocTestParser().get_doctest(text, {}, README, README, 0)])
        self.assertEqual(said, "")
        self.assertEqual(count, text.count(">>> "))

    def test_commands_of_the_page(self) -> None:
        found = examples(README)
        self.assertGreater(len(found), 1)
        for example in found:
            with self.subTest(example.command):
                self.assertEqual(run(example.command), example.wanted)

    def test_the_command_that_starts_it(self) -> None:
        (command,) = [line.strip() for line in (ROOT / README).read_text(encoding="utf-8").split("\n") if line.startswith("    PYTHONPATH")]
        self.assertEqual(run(command), "7\n")

    def test_docstrings(self) -> None:
        names = ["korzhinay"] + ["korzhinay.%s" % path.stem for path in (ROOT / "python" / "korzhinay").glob("[!_]*.py")]
        modules = [importlib.import_module(name) for name in names]
        count, said = run_examples([test for module in modules for test in doctest.DocTestFinder().find(module)])
        self.assertEqual(said, "")
        self.assertGreater(count, 8)

    def test_every_call_has_an_example(self) -> None:
        for name in "check_table", "tokens", "evaluate", "field", "select", "Table", "Refused":
            with self.subTest(name):
                self.assertIn(">>> ", getattr(korzhinay, name).__doc__)
