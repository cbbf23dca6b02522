"""The module is typed and documented: everything in it has annotations and says what it is, in words of Python 3.9."""

from __future__ import annotations

import ast
import unittest
from pathlib import Path
from typing import Any, Iterator, Tuple

import korzhinay

from .checkout import ROOT

PACKAGE = ROOT / "python" / "korzhinay"
FUNCTIONS = (ast.FunctionDef, ast.AsyncFunctionDef)


def sources() -> Iterator[Tuple[Path, ast.Module]]:
    """The files of the module, read as Python 3.9."""
    for path in sorted(PACKAGE.glob("*.py")):
        yield path, ast.parse(path.read_text(encoding="utf-8"), str(path), feature_version=(3, 9))


def is_annotated(function: Any) -> bool:
    """Whether the result and every parameter has an annotation, `self` and `cls` left out."""
    given = function.args
    parameters = [*given.posonlyargs, *given.args, *given.kwonlyargs, *filter(None, [given.vararg, given.kwarg])]
    return function.returns is not None and all(each.annotation or each.arg in ("self", "cls") for each in parameters)


class Typing(unittest.TestCase):
    def test_annotations(self) -> None:
        functions = [(path.name, node) for path, source in sources() for node in ast.walk(source) if isinstance(node, FUNCTIONS)]
        self.assertGreater(len(functions), 30)
        self.assertEqual([(name, node.name) for name, node in functions if not is_annotated(node)], [])

    def test_types_are_given_to_others(self) -> None:
        self.assertTrue((PACKAGE / "py.typed").is_file())

    def test_documentation(self) -> None:
        for path, source in sources():
            self.assertTrue(ast.get_docstring(source), path.name)
            for node in ast.walk(source):
                # What Python calls by itself needs none.
                if isinstance(node, (ast.ClassDef, *FUNCTIONS)) and not node.name.startswith("__"):
                    self.assertTrue(ast.get_docstring(node), "%s: %s" % (path.name, node.name))

    def test_public_names(self) -> None:
        self.assertEqual(len(korzhinay.__all__), len(set(korzhinay.__all__)))
        modules = {path.stem for path in PACKAGE.glob("*.py")}
        public = {name for name in vars(korzhinay) if not name.startswith("_")} - modules | {"limits", "__version__"}
        self.assertEqual(set(korzhinay.__all__), public)

    def test_the_standard_library_is_enough(self) -> None:
        used = set()
        for _, source in sources():
            for node in ast.walk(source):
                if isinstance(node, ast.Import):
                    used |= {each.name for each in node.names}
                elif isinstance(node, ast.ImportFrom) and not node.level:
                    used.add(node.module or "")
        self.assertEqual(used, set("__future__ ctypes dataclasses enum io itertools os pathlib struct types typing".split()))
