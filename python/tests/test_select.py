"""Selections of the lines of files."""

from __future__ import annotations

import itertools
import unittest

from korzhinay import Edition, Mark, Selection, Table, evaluate, select

from .checkout import COMMAND, CORPUS, EXAMPLES, run
from .outcome import outcome
from .written import written_by_the_command

WHOLE = b"!if $(FOO) == 2\nA\n!elseif 1 / 0\nB\n!else\nC\n!endif\nD"
# A file whose lines have all sorts of ends, with its lines.
ENDS = [b"a\r\n", b"b\rc\n", b"\x0b\x0c\x1c\x85\n", b"!if 0\r\n", b"d\r\n", b"!endif\n", b"\r\n", b"\r"]


class Select(unittest.TestCase):
    def test_the_whole_case(self) -> None:
        selection = select(WHOLE, {"FOO": 2})
        self.assertEqual(selection.marks, bytes([4, 1, 2, 0, 3, 0, 5, 1]))
        self.assertEqual((selection.lines, selection.operators, selection.kept()), (8, 1, b"A\nD"))

    def test_the_whole_case_where_the_second_branch_is_read(self) -> None:
        for table in {"FOO": 3}, {}, b"", Table():
            with self.subTest(table):
                self.assertEqual(outcome(select, WHOLE, table), (12, 3, 10))

    def test_the_whole_case_with_other_conditions(self) -> None:
        for condition, marks, operators, kept in (b"0", "30304151", 1, b"C\nD"), (b"2 / 2", "30413051", 2, b"B\nD"):
            selection = select(WHOLE.replace(b"1 / 0", condition), {"FOO": 3})
            self.assertEqual(("".join(map(str, selection.marks)), selection.operators, selection.kept()), (marks, operators, kept))

    def test_bars_need_no_parentheses(self) -> None:
        self.assertEqual(select(b"!if $(A) == 1 || $(B) == 1\nx\n!endif", {"B": 1}).kept(), b"x\n")

    def test_an_empty_file(self) -> None:
        self.assertEqual(select(b""), Selection(b"", 0, b""))

    def test_lines_end_at_lf_alone(self) -> None:
        selection = select(b"".join(ENDS))
        marks = [Mark.KEPT, Mark.KEPT, Mark.KEPT, Mark.NOT_TAKEN, Mark.DROPPED, Mark.END, Mark.KEPT, Mark.KEPT]
        self.assertEqual(list(selection.annotated()), list(zip(range(1, 9), marks, ENDS)))
        self.assertEqual(selection.kept(), b"".join(ENDS[:3] + ENDS[6:]))

    def test_a_file_is_bytes(self) -> None:
        self.assertEqual(select(bytearray(WHOLE), {"FOO": 2}), select(memoryview(WHOLE), {"FOO": 2}))
        with self.assertRaises(TypeError):
            select("!if 1\n!endif\n")  # type: ignore[arg-type]

    def test_marks_and_lines_belong_together(self) -> None:
        with self.assertRaisesRegex(ValueError, "^1 marks for 2 lines$"):
            Selection(b"\1", 0, b"a\nb")


class Define(unittest.TestCase):
    """DEFINE lines set macros for the lines after them."""

    def test_a_kept_line(self) -> None:
        file = b"!if $(WEEK)\nx\n!endif\n\tDEFINE WEEK = 1 # set\r\n!if $(WEEK)\ny\n!endif\n"
        selection = select(file)
        self.assertEqual(selection.marks, bytes([3, 0, 5, Mark.DEFINE, 4, 1, 5]))
        self.assertEqual(selection.kept(), b"\tDEFINE WEEK = 1 # set\r\ny\n")

    def test_it_wins_over_the_table_which_stays(self) -> None:
        table = Table(WEEK=3)
        for content, condition in (b"50", b"$(WEEK) == 50"), (b"'a'", b"$(WEEK) == 'a'"), (b"$(WEEK) + 1", b"$(WEEK) == 4"):
            with self.subTest(content):
                file = b"DEFINE WEEK = %s\n!if %s\nx\n!endif\n!ifdef WEEK\ny\n!endif" % (content, condition)
                self.assertEqual(select(file, table).marks, bytes([6, 4, 1, 5, 4, 1, 5]))
        self.assertEqual(table, {"WEEK": 3})
        self.assertEqual(evaluate("$(WEEK)", table).number, 3)

    def test_one_that_is_not_kept(self) -> None:
        file = b"!if 0\nDEFINE WEEK = @\nDEFINE\n!endif\n!ifdef WEEK\n!endif"
        self.assertEqual(select(file), Selection(bytes([3, 0, 0, 5, 3, 5]), 0, file))

    def test_operators_count(self) -> None:
        self.assertEqual(select(b"DEFINE A = 1 + 2 * 3\n!if $(A) == 7\n!endif").operators, 3)

    def test_nothing_is_left_from_another_call(self) -> None:
        for _ in range(2):
            self.assertEqual(select(b"!ifdef A\n!endif\nDEFINE A = 1").marks, bytes([3, 5, 6]))


class Command(unittest.TestCase):
    """Every description file of the repository: the module keeps what the command keeps, or refuses it at the same line."""

    def test_files(self) -> None:
        files = [path for path in (*EXAMPLES.rglob("*"), *(CORPUS / "files").rglob("*")) if path.suffix.lower() in (".dsc", ".fdf", ".inc")]
        self.assertGreater(len(files), 10)
        for settings in EXAMPLES / "buoy.settings", CORPUS / "spar.settings":
            table = Table.from_bytes(written_by_the_command("-s", settings))
            for path, edition in itertools.product(files, Edition):
                with self.subTest(str(path), settings=settings.name, edition=edition):
                    status, kept, said = run(COMMAND, "select", "--edition", edition.name.lower(), "-s", settings, path)
                    answer = outcome(select, path.read_bytes(), table, edition=edition)
                    if isinstance(answer, Selection):
                        self.assertEqual((status, kept), (0, answer.kept()))
                    else:
                        number, line, _ = answer
                        self.assertEqual((status, kept), (1, b""))
                        self.assertRegex(said.decode(), r":%d:\d+: refused \(%d\): " % (max(line, 1), number))
