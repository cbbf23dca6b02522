"""Tables that the command writes."""

from __future__ import annotations

import tempfile
from pathlib import Path

from .checkout import COMMAND, run


def written_by_the_command(*settings: object) -> bytes:
    """The table that the command makes of these settings."""
    with tempfile.TemporaryDirectory() as folder:
        out = Path(folder, "table")
        status, _, said = run(COMMAND, "table", *settings, "-o", out)
        if status:
            raise AssertionError(said)
        return out.read_bytes()
