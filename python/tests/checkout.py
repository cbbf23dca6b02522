"""The checkout: its root, its built command, and what its other tests know."""

from __future__ import annotations

import subprocess
import sys
from pathlib import Path
from typing import Tuple

ROOT = Path(__file__).resolve().parents[2]
COMMAND = ROOT / "target" / "korzhinay"
EXAMPLES = ROOT / "examples"
CORPUS = ROOT / "tests" / "corpus"
# The vectors of the library, and the sessions of documents.
sys.path[1:1] = [str(ROOT / "tests" / part) for part in ("vectors", "documents")]


def run(*words: object) -> Tuple[int, bytes, bytes]:
    """A process, started at the root: its exit status, standard output and standard error."""
    done = subprocess.run([str(word) for word in words], cwd=ROOT, stdin=subprocess.DEVNULL, capture_output=True, timeout=60)
    return done.returncode, done.stdout, done.stderr
