"""The version is that of the command, and of the package that `pip` installs."""

from __future__ import annotations

import re
import unittest

import korzhinay

from .checkout import COMMAND, ROOT, run


class Version(unittest.TestCase):
    def test_it_is_that_of_the_command(self) -> None:
        manifest = (ROOT / "cli" / "Cargo.toml").read_text(encoding="utf-8")
        self.assertEqual(re.findall(r'^version = "(.*)"$', manifest, re.M), [korzhinay.__version__])
        self.assertIn(korzhinay.__version__, run(COMMAND, "--version")[1].decode())

    def test_it_is_written_in_one_place(self) -> None:
        python = ROOT / "python"
        paths = [python / "pyproject.toml", python / "README.md", *(python / "korzhinay").glob("*.py"), *(python / "tests").glob("*.py")]
        found = [path.name for path in paths if korzhinay.__version__ in path.read_text(encoding="utf-8")]
        self.assertEqual(found, ["__init__.py"])
        self.assertIn('version = { attr = "korzhinay.__version__" }', paths[0].read_text(encoding="utf-8"))
