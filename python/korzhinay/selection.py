"""What a selection says of the lines of a file."""

from __future__ import annotations

import io
from dataclasses import dataclass, field
from typing import Final, Iterator, List, Tuple

from .codes import Mark

KEPT: Final = (Mark.KEPT, Mark.DEFINE)
"""The marks of the lines that are kept."""


@dataclass(frozen=True)
class Selection:
    """The marks of the lines of a file, one byte each (`Mark`), and how many operators were applied in all expressions that were read."""

    marks: bytes
    operators: int
    file: bytes = field(repr=False)

    def __post_init__(self) -> None:
        # Lines are cut here, and by the library for its marks; if the two ever differ, no line may be lost.
        if len(self.marks) != len(lines_of(self.file)):
            raise ValueError("%d marks for %d lines" % (len(self.marks), len(lines_of(self.file))))

    @property
    def lines(self) -> int:
        """How many lines the file has."""
        return len(self.marks)

    def annotated(self) -> Iterator[Tuple[int, Mark, bytes]]:
        """Each line: its number, counted from 1, its mark, and its bytes with its end."""
        for number, (mark, line) in enumerate(zip(self.marks, lines_of(self.file)), 1):
            yield number, Mark(mark), line

    def kept(self) -> bytes:
        """The lines that are kept, byte for byte, DEFINE lines included."""
        return b"".join(line for _, mark, line in self.annotated() if mark in KEPT)


def lines_of(file: bytes) -> List[bytes]:
    """The lines of a file, each with its end. An LF ends a line, and nothing else does."""
    return io.BytesIO(file).readlines()
