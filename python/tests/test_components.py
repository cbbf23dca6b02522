"""examples/components.py: which INF paths it prints, and how it ends."""

from __future__ import annotations

import sys
import tempfile
import unittest
from pathlib import Path
from typing import Tuple

from .checkout import COMMAND, CORPUS, EXAMPLES, run

PROGRAM = EXAMPLES / "components.py"

PLATFORM = b"""\
[Defines]
  A/NotHere.inf
[Components] # all
  A/One.inf  # the first
  # A/Comment.inf
  A/Two.inf {
    <LibraryClasses>
      TwoLib|A/TwoLib.inf
      NULL|A/NullLib.inf
    <PcdsFixedAtBuild>
      g.Guid|{0x01, 0x02}
  }
!if $(X)
  $(A)/Three.INF{
    A/ThreeLib.inf
  }
!endif
  !include A/Four.dsc.inc
  DEFINE FIVE = "A/Five.inf"
[LibraryClasses.common]
  SixLib|A/SixLib.inf
[ components.IA32 , COMPONENTS.X64 ]
\tA/Seven.inf\r
[ComponentsOf.X64]
  A/Eight.inf
[LibraryClasses.X64, Components.X64]
  A/Nine.inf"""


def listed(*words: object) -> Tuple[int, bytes, bytes]:
    """Exit status, standard output and standard error of the example."""
    return run(sys.executable, PROGRAM, *words)


class Components(unittest.TestCase):
    def setUp(self) -> None:
        folder = tempfile.TemporaryDirectory()
        self.addCleanup(folder.cleanup)
        self.file = Path(folder.name, "a.dsc")

    def test_a_window_over_the_new_year(self) -> None:
        watchdog, both = b"BuoyPkg/Watchdog/Watchdog.inf\n", b"BuoyPkg/Beacon/Beacon.inf\n%sBuoyPkg/SparBattery/SparBattery.inf\n"
        for name, week, kept in ("right", 3, watchdog), ("right", 20, b""), ("right", 50, watchdog), ("wrong", 3, b""), ("wrong", 50, b""):
            with self.subTest(name, week=week):
                given = "-D", "WEEK=%d" % week, "-D", "BOARD=SPAR", EXAMPLES / ("window-%s.dsc" % name)
                self.assertEqual(listed(*given), (0, both % kept, b""))

    def test_a_refusal(self) -> None:
        said = b"examples/window-right.dsc:13:14: refused (10): an operator does not take operands of these kinds\n"
        self.assertEqual(listed("-D", "WEEK=3", "examples/window-right.dsc"), (1, b"", said))

    def test_sections_braces_and_comments(self) -> None:
        self.file.write_bytes(PLATFORM)
        some = b"A/One.inf\nA/Two.inf\n%sA/Seven.inf\nA/Nine.inf\n"
        self.assertEqual(listed(self.file), (0, some % b"", b""))
        self.assertEqual(listed("-D", "X", self.file), (0, some % b"$(A)/Three.INF\n", b""))

    def test_settings(self) -> None:
        for given, condition in [
            ("X", "$(X) == 1"),
            ("X=7", "$(X) == 7"),
            ("X = 0x10 ", "$(X) == 16"),
            ("X=TRUE", "$(X)"),
            ("X=2 + 3", "$(X) == 5"),
            ("X=SPAR", '$(X) == "SPAR"'),
            ('X="a b"', '$(X) == "a b"'),
            ("X=L'a'", "$(X) == L'a'"),
            ("g.Pcd=3", "g.Pcd == 3"),
        ]:
            with self.subTest(given):
                self.file.write_text("[Components]\n!if %s\nX.inf\n!endif\n" % condition)
                self.assertEqual(listed("-D", given, self.file), (0, b"X.inf\n", b""))

    def test_the_last_setting_of_a_name_counts(self) -> None:
        self.file.write_text("[Components]\n!if $(X) == 2\nX.inf\n!endif\n")
        self.assertEqual(listed("-D", "X=1", "--define", "X=2", self.file), (0, b"X.inf\n", b""))

    def test_wrong_usage(self) -> None:
        self.file.write_bytes(b"")
        for given in "-DX=1/0", "-DX=a b", "-DX=", "-Dweek=1", "-D=1", "-DX=%s" % ("x" * 57), "-D ", "-E":
            with self.subTest(given):
                status, printed, said = listed(given, self.file)
                self.assertEqual((status, printed), (2, b""))
                self.assertNotIn(b"Traceback", said)
        for files in (), (self.file, self.file), (self.file / "nowhere",), (self.file.parent,):
            self.assertEqual(listed(*files)[:2], (2, b""))

    def test_places_are_those_of_the_command(self) -> None:
        made = [b"\n \t!iff 1\n", b"x\n  !if 1 / 0\r\n!endif", b"x\n\t!else\n", b"!if 1\n  !if 0\n", b"  !if 2\n!endif"]
        made += [b"\n" * 4097, b" " * 1025, b"  " + b"x" * 1030]
        files = {path.read_bytes() for path in (CORPUS / "files" / "refused").iterdir()} | set(made)
        refused = 0
        for file in sorted(files):
            self.file.write_bytes(file)
            status, printed, said = run(COMMAND, "select", self.file)
            with self.subTest(file[:60]):
                if status:
                    self.assertEqual(listed(self.file), (1, printed, said.split(b"\n")[0] + b"\n"))
                    refused += 1
        self.assertGreater(refused, len(made))
