"""Lent arrays with guards on both sides, for everything that the module lends to the library."""

from __future__ import annotations

from contextlib import contextmanager
from ctypes import c_uint64, sizeof
from typing import Any, Iterator, List, Tuple
from unittest.mock import patch

# Before a call this is in the guards, and in the array itself: what is not written must not be read.
PATTERN = 0xA5A5A5A5A5A5A5A5
GUARD_BYTES = 64


class Guards:
    """The arrays that were lent, each as the memory around it and its size."""

    def __init__(self) -> None:
        self.lent: List[Tuple[Any, int]] = []

    def lend(self, array: Any) -> Any:
        size = sizeof(array)
        words = -(-(size + 2 * GUARD_BYTES) // sizeof(c_uint64))
        memory = (c_uint64 * words)(*[PATTERN] * words)
        self.lent.append((memory, size))
        return array.from_buffer(memory, GUARD_BYTES)

    def broken(self) -> int:
        """How many arrays have a changed guard."""
        return sum(1 for memory, size in self.lent if not is_whole(bytes(memory), size))


def is_whole(memory: bytes, size: int) -> bool:
    """Whether nothing but an array of this size was written."""
    guards = memory[:GUARD_BYTES] + memory[GUARD_BYTES + size :]
    return guards == bytes([PATTERN & 0xFF]) * len(guards)


@contextmanager
def guarded() -> Iterator[Guards]:
    """All arrays that are lent meanwhile have guards, and these must stay."""
    guards = Guards()
    with patch("korzhinay.raw.lend", guards.lend):
        yield guards
    if guards.broken() or not guards.lent:
        raise AssertionError("%d arrays lent, and %d have changed guards" % (len(guards.lent), guards.broken()))
