"""Tables of settings: built, read, merged, and what they refuse to hold."""

from __future__ import annotations

import random
import struct
import unittest
from collections import OrderedDict
from enum import IntEnum
from typing import Any, Dict, List

from korzhinay import Code, Content, ContentLike, Refused, Table, Wide, check_table, evaluate, field, select, tokens

from .checkout import EXAMPLES
from .outcome import outcome
from .written import written_by_the_command

SETTINGS: Dict[str, Content] = {"BOARD": b"SPAR", "NAME": Wide(b"Seal 7"), "WEEK": 50, "_._": 1, "gBuoy.PcdCells": 12}
TABLE = Table(SETTINGS)

NAMES = ["A", "Z9_", "A_", "TRUE", "AND", "X" * 64, "a.b", "_._", "A.B", "AND.or", "_1.x_", "a." + "x" * 62]
NO_NAMES = ["", "a", "week", "Week", "_A", "9A", "A B", " A", "A ", "A\t", "A\0", "\0", "A\0B", "$(A)", "(A)", "A-B", "A=1", "A#", "\u00c9"]
NO_NAMES += ["a.", ".a", ".", "a.b.c", "a..b", "a.1", "1.a", "a .b", "a. b", "a.b\0", "a.b#", "a.\u00e9"]
NO_NAMES += ["'A'", "1", "A,B", "A\n", "\udcff"]


class Week(IntEnum):
    """A number by its name."""

    LAST = 52


class Build(unittest.TestCase):
    def test_all_ways_give_one_table(self) -> None:
        shuffled = list(SETTINGS.items())
        random.Random(1).shuffle(shuffled)
        ways = [
            Table(dict(shuffled)),
            Table({name.encode(): content for name, content in shuffled}),
            Table(OrderedDict(SETTINGS)),
            Table({"gBuoy.PcdCells": 12, "_._": True}, WEEK=50, BOARD="SPAR", NAME=Wide(b"Seal 7")),
            Table(TABLE),
            Table().with_(SETTINGS),
            Table.from_bytes(bytes(TABLE)),
            Table.from_bytes(bytearray(bytes(TABLE))),
        ]
        self.assertEqual([bytes(way) for way in ways], [bytes(TABLE)] * len(ways))

    def test_the_bytes_of_a_record(self) -> None:
        def record(name: bytes, kind: int, length: int, content: bytes) -> bytes:
            return name.ljust(64, b"\0") + bytes([kind, length]) + bytes(6) + content.ljust(56, b"\0")

        wanted = record(b"BOARD", 1, 4, b"SPAR") + record(b"NAME", 2, 6, b"Seal 7") + record(b"WEEK", 0, 8, struct.pack("<Q", 50))
        self.assertEqual(bytes(Table(WEEK=50, BOARD="SPAR", NAME=Wide(b"Seal 7"))), wanted)

    def test_the_command_writes_the_same_bytes(self) -> None:
        given = ["-D", "BOARD=SPAR", "-D", 'NAME=L"Seal 7"', "-D", "WEEK=50", "-D", "gBuoy.PcdCells=12", "-D", "_._"]
        self.assertEqual(bytes(TABLE), written_by_the_command(*given))
        buoy: Dict[str, ContentLike] = {"BOARD": "SPAR", "WEEK": 50}
        self.assertEqual(bytes(Table(buoy)), written_by_the_command("-s", EXAMPLES / "buoy.settings"))

    def test_a_later_setting_overrides(self) -> None:
        self.assertEqual(dict(Table({"A": 1, "B": 2, b"A": "x"}, B=3)), {"A": b"x", "B": 3})

    def test_contents(self) -> None:
        given: List[Any] = [True, False, Week.LAST, "\u00e9", b"\xff\0", bytearray(b"ab"), memoryview(b"cd"), "", Wide(b"")]
        wanted = [1, 0, 52, b"\xc3\xa9", b"\xff\0", b"ab", b"cd", b"", Wide(b"")]
        self.assertEqual([Table(A=content)["A"] for content in given], wanted)

    def test_what_is_no_content(self) -> None:
        for content in None, 1.0, [1], ("a",), object(), evaluate("1"):
            with self.subTest(content), self.assertRaisesRegex(TypeError, "^'A': a setting is int, bool, bytes, str or Wide, not "):
                Table(A=content)  # type: ignore[arg-type]

    def test_a_wide_string_is_bytes(self) -> None:
        for string in "Seal", bytearray(b"Seal"), 4:
            with self.subTest(string), self.assertRaisesRegex(TypeError, "^a wide string is made of bytes, not of "):
                Wide(string)  # type: ignore[arg-type]

    def test_what_is_no_text_is_no_name(self) -> None:
        for name in 1, None, ("A",):
            with self.subTest(name), self.assertRaises(TypeError):
                Table({name: 1})  # type: ignore[dict-item]


class Names(unittest.TestCase):
    def test_names(self) -> None:
        self.assertEqual(dict(Table(dict.fromkeys(NAMES, 7))), dict.fromkeys(NAMES, 7))

    def test_what_is_no_name(self) -> None:
        for name in NO_NAMES:
            with self.subTest(name), self.assertRaisesRegex(ValueError, "^['\"].* names no macro .* and no PCD "):
                Table({name: 1})

    def test_a_name_is_what_the_library_reads_as_one(self) -> None:
        likely, draw = b"Aa9_. \0$(", random.Random(2)
        found = {True: 0, False: 0}
        for _ in range(3000):
            name = bytes(draw.choices(likely, weights=[9, 9, 3, 3, 9, 1, 1, 1, 1], k=draw.randrange(1, 5)))
            is_read = self.single(b"$(" + name + b")", Code.MACRO) or self.single(name, Code.PCD)
            with self.subTest(name):
                self.assertEqual(self.is_held(name), is_read)
            found[is_read] += 1
        self.assertGreater(min(found.values()), 300)

    def single(self, text: bytes, code: Code) -> bool:
        """Whether a text is one token of this code and nothing else."""
        try:
            return [(token.code, token.text) for token in tokens(text)] == [(code, text)]
        except Refused:
            return False

    def is_held(self, name: bytes) -> bool:
        """Whether a table can have this name."""
        try:
            return Table({name: 1}).lookup(name) == 1
        except ValueError:
            return False


class Reads(unittest.TestCase):
    def test_it_reads_like_a_dict(self) -> None:
        self.assertEqual(dict(TABLE), SETTINGS)
        self.assertEqual(TABLE, SETTINGS)
        self.assertEqual((list(TABLE), len(TABLE)), (sorted(SETTINGS), len(SETTINGS)))
        self.assertEqual(list(TABLE.values()), [SETTINGS[name] for name in sorted(SETTINGS)])
        self.assertEqual((TABLE.get("WEEK"), TABLE.get("NOPE", 7)), (50, 7))
        self.assertEqual(repr(TABLE), "Table(%r)" % {name: SETTINGS[name] for name in sorted(SETTINGS)})
        self.assertEqual((bool(Table()), bool(TABLE), len(Table())), (False, True, 0))

    def test_lookup(self) -> None:
        for name, content in SETTINGS.items():
            self.assertEqual([TABLE.lookup(name), TABLE.lookup(name.encode()), TABLE[name]], [content] * 3)
            for each in name, name.encode():
                self.assertTrue(TABLE.__contains__(each))

    def test_what_is_not_there(self) -> None:
        for name in [*NO_NAMES, "WEE", "WEEKS", "WEEK\0", "x.y", "X" * 65, "W" * 100000]:
            with self.subTest(name[:20]):
                self.assertIsNone(TABLE.lookup(name))
                self.assertFalse(name in TABLE)
                with self.assertRaises(KeyError):
                    TABLE[name]
        self.assertFalse(TABLE.__contains__(50))

    def test_an_empty_string_is_found(self) -> None:
        table = Table(A="", B=Wide(b""), C=0)
        self.assertEqual([table.lookup(name) for name in "ABC"], [b"", Wide(b""), 0])
        self.assertTrue(all(name in table for name in "ABC"))

    def test_merging(self) -> None:
        merged = TABLE.with_({"WEEK": 3, "g.New": "x"}, ADDED=True)
        self.assertEqual(merged, {**SETTINGS, "WEEK": 3, "g.New": b"x", "ADDED": 1})
        self.assertEqual(TABLE, SETTINGS)
        self.assertEqual(TABLE.without("WEEK", b"_._", "NOPE", ""), {name: SETTINGS[name] for name in ("BOARD", "NAME", "gBuoy.PcdCells")})
        with self.assertRaises(ValueError):
            TABLE.with_(week=1)


class Malformed(unittest.TestCase):
    def test_bytes_that_are_no_table(self) -> None:
        whole = bytes(TABLE)
        for records in b"x", whole[:-1], whole + b"\0", whole[128:] + whole[:128], whole[:128] * 2, bytes(128):
            for call in check_table, Table.from_bytes:
                self.assertEqual(outcome(call, records), (1, 0, 0))
            self.assertEqual(outcome(evaluate, "1", records), (1, 0, 0))
            self.assertEqual(outcome(field, "1", 2, records), (1, 0, 0))
            self.assertEqual(outcome(select, b"", records), (1, 0, 0))

    def test_bytes_that_are_one(self) -> None:
        for table in Table(), TABLE:
            check_table(bytes(table))

    def test_a_str_is_no_table(self) -> None:
        for given in "", "A", 0, None, [("A", 1)]:
            with self.subTest(given), self.assertRaises(TypeError):
                check_table(given)  # type: ignore[arg-type]
            with self.subTest(given), self.assertRaises(TypeError):
                evaluate("1", given)  # type: ignore[arg-type]


class Given(unittest.TestCase):
    """Every call takes a table, its bytes or a mapping."""

    def test_one_answer(self) -> None:
        tables: List[Any] = [TABLE, bytes(TABLE), bytearray(bytes(TABLE)), SETTINGS, {b"WEEK": 50}, OrderedDict(SETTINGS)]
        for table in tables:
            with self.subTest(type(table)):
                self.assertEqual(evaluate("$(WEEK)", table).number, 50)
                self.assertEqual(field("$(WEEK)", 2, table), b"2")
                self.assertEqual(select(b"!ifdef WEEK\nx\n!endif", table).kept(), b"x\n")

    def test_a_mapping_that_no_table_can_hold(self) -> None:
        with self.assertRaises(ValueError):
            evaluate("1", {"week": 50})
