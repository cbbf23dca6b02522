"""The codes, meanings and signatures are those of include/korzhinay.h."""

from __future__ import annotations

import unittest

from korzhinay import MEANINGS, Code, Datum, Edition, Kind, Mark, Refused, library, limits
from korzhinay.codes import Memory
from korzhinay.signatures import SIGNATURES

from . import header
from .checkout import ROOT

ENUMS = {
    "dialect": ("KORZHINAY_EDITION_", Edition),
    "code": ("KORZHINAY_", Code),
    "kind": ("KORZHINAY_KIND_", Kind),
    "memory": ("KORZHINAY_IN_", Memory),
    "datum": ("KORZHINAY_DATUM_", Datum),
    "mark": ("KORZHINAY_MARK_", Mark),
}
# The limits that a meaning names.
NAMED = {
    2: limits.MAX_EXPRESSION_BYTES,
    5: limits.MAX_TOKENS,
    6: limits.MAX_PARENTHESES,
    14: limits.MAX_FILE_BYTES,
    15: limits.MAX_LINES,
    17: limits.MAX_LINE_BYTES,
    20: limits.MAX_GROUPS,
    27: limits.MAX_DEFINED,
    28: limits.MAX_CONTENT_BYTES,
}


class Header(unittest.TestCase):
    def test_codes(self) -> None:
        for name, (prefix, enum) in ENUMS.items():
            with self.subTest(name):
                self.assertEqual({prefix + member.name: member.value for member in enum}, header.members(name))

    def test_there_is_no_other_enum_of_codes(self) -> None:
        # Refusals are numbers here, with their meanings.
        self.assertEqual(set(header.enums()) - {"refusal"}, set(ENUMS))

    def test_meanings(self) -> None:
        self.assertEqual({0: "no refusal", **MEANINGS}, header.meanings())
        self.assertEqual(list(MEANINGS), list(range(1, 29)))
        self.assertEqual({Refused(number).meaning for number in (0, 29, 255)}, {header.other_meaning()})

    def test_functions(self) -> None:
        self.assertEqual({name: list(types) for name, types in SIGNATURES.items()}, header.functions())

    def test_limits_that_a_meaning_names(self) -> None:
        for number, limit in NAMED.items():
            with self.subTest(number):
                self.assertRegex(header.meanings()[number], r"(^| )%s( |$)" % format(limit, ","))

    def test_the_name_of_the_shared_library(self) -> None:
        major, minor = (header.constants()["VERSION_" + part] for part in ("MAJOR", "MINOR"))
        # While the first number is 0, the second one is in the name too.
        self.assertEqual(library.INSTALLED, "libkorzhinay.so." + ("%d" % major if major else "0.%d" % minor))
        self.assertIn("`%s`" % library.INSTALLED, (ROOT / "python" / "README.md").read_text(encoding="utf-8"))

    def test_limits(self) -> None:
        declared = {name: number for name, number in header.constants().items() if not name.startswith("VERSION")}
        ours = {name: number for name, number in vars(limits).items() if name.isupper() and name != "MAX_NUMBER"}
        self.assertEqual(ours, declared)
