"""How the shared library is found: in fresh processes, with the module in a checkout and copied out of it."""

from __future__ import annotations

import os
import shutil
import subprocess
import sys
import tempfile
import unittest
from pathlib import Path
from typing import Tuple

from korzhinay.library import INSTALLED, load, places

from .checkout import ROOT

PACKAGE = ROOT / "python" / "korzhinay"
BUILT = ROOT / "target" / "libkorzhinay.so"
PROGRAM = "import korzhinay; print(korzhinay.raw.LIBRARY._name, korzhinay.evaluate('1 + 1').number)"

# How a failed import ends, with the one fault that it names.
FAULT = r"\nImportError: the Korzhinay library cannot be loaded; KORZHINAY_LIBRARY can name its path\. Tried:\n  %s\n$"


def imported(path: Path, **variables: str) -> Tuple[int, str]:
    """The status of a process that imports the module from this path, and what it prints."""
    kept = {name: value for name, value in os.environ.items() if name not in ("KORZHINAY_LIBRARY", "LD_LIBRARY_PATH")}
    environment = {**kept, "PYTHONPATH": str(path), **variables}
    done = subprocess.run([sys.executable, "-c", PROGRAM], env=environment, stdout=subprocess.PIPE, stderr=subprocess.STDOUT, timeout=60)
    return done.returncode, done.stdout.decode()


class Library(unittest.TestCase):
    def setUp(self) -> None:
        folder = tempfile.TemporaryDirectory()
        self.addCleanup(folder.cleanup)
        self.folder = Path(folder.name)
        # The module as `pip` installs it: no checkout is around it.
        self.installed = self.folder / "lib" / "python"
        shutil.copytree(PACKAGE, self.installed / "korzhinay", ignore=shutil.ignore_patterns("__pycache__"))

    def library(self, name: str) -> Path:
        """A copy of the library under another name."""
        return Path(shutil.copy(BUILT, self.folder / name))

    def test_in_a_checkout(self) -> None:
        self.assertEqual(imported(ROOT / "python"), (0, "%s 2\n" % BUILT))

    def test_the_environment_comes_first(self) -> None:
        named = self.library("other.so")
        for path in ROOT / "python", self.installed:
            self.assertEqual(imported(path, KORZHINAY_LIBRARY=str(named)), (0, "%s 2\n" % named))

    def test_an_empty_name_is_none(self) -> None:
        self.assertEqual(imported(ROOT / "python", KORZHINAY_LIBRARY=""), (0, "%s 2\n" % BUILT))

    def test_no_other_place_is_tried_if_the_environment_names_one(self) -> None:
        status, said = imported(ROOT / "python", KORZHINAY_LIBRARY="/nowhere/libkorzhinay.so")
        self.assertEqual(status, 1)
        self.assertRegex(said, FAULT % r"/nowhere/libkorzhinay\.so: [^\n]*")

    def test_the_installed_library(self) -> None:
        self.library(INSTALLED)
        self.assertEqual(imported(self.installed, LD_LIBRARY_PATH=str(self.folder)), (0, "%s 2\n" % INSTALLED))

    def test_a_library_of_another_version(self) -> None:
        # The calls of 0.1 took no dialect, and those of 0.2 obeyed no DEFINE line.
        for ending in "", ".0", ".0.2", ".0.4", ".1.3":
            self.library("libkorzhinay.so" + ending)
        self.library(INSTALLED + ".0")
        status, said = imported(self.installed, LD_LIBRARY_PATH=str(self.folder))
        self.assertEqual(status, 1)
        self.assertRegex(said, FAULT % (INSTALLED.replace(".", r"\.") + ": [^\n]*"))

    def test_a_library_without_the_calls(self) -> None:
        status, said = imported(self.installed, KORZHINAY_LIBRARY="libc.so.6")
        self.assertEqual(status, 1)
        self.assertRegex(said, FAULT % "[^\n]*undefined symbol: korzhinay_table")


class Places(unittest.TestCase):
    def test_the_order(self) -> None:
        self.assertEqual(places({}, PACKAGE), [str(BUILT), INSTALLED])
        self.assertEqual(places({}, Path("/usr/lib/python3/korzhinay")), [INSTALLED])
        self.assertEqual(places({}, Path("/")), [INSTALLED])
        self.assertEqual(places({"KORZHINAY_LIBRARY": "a.so"}, PACKAGE), ["a.so"])

    def test_the_first_that_can_be_loaded(self) -> None:
        self.assertEqual(load(["/nowhere/a.so", str(BUILT), "/nowhere/b.so"])._name, str(BUILT))

    def test_what_was_tried(self) -> None:
        with self.assertRaises(ImportError) as caught:
            load(["/nowhere/a.so", str(ROOT / "README.md"), "/nowhere/b.so"])
        tried = str(caught.exception).split("\n")[1:]
        self.assertEqual([line.split(":")[0] for line in tried], ["  /nowhere/a.so", "  %s" % (ROOT / "README.md"), "  /nowhere/b.so"])
