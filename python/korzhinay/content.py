"""What a value or a setting holds: a number as an int, a string as bytes, a wide string as `Wide`."""

from __future__ import annotations

from dataclasses import dataclass
from typing import Union

from .codes import Kind


@dataclass(frozen=True)
class Wide:
    """A wide string, as `L"..."` has it: one byte for each character."""

    string: bytes

    def __post_init__(self) -> None:
        # The UTF-8 of a str would be other characters, each of two bytes.
        if not isinstance(self.string, bytes):
            raise TypeError("a wide string is made of bytes, not of %s" % type(self.string).__name__)


Content = Union[int, bytes, Wide]
"""What comes out of a table or of an evaluation."""

ContentLike = Union[int, bytes, str, Wide]
"""What a setting can be given as: a bool is the number 0 or 1, a str a string in UTF-8."""


def kind_of(content: Content) -> Kind:
    """The kind of a content."""
    if isinstance(content, int):
        return Kind.NUMBER
    return Kind.WIDE if isinstance(content, Wide) else Kind.STRING


def string_content(kind: int, string: bytes) -> Content:
    """The content of one of the two kinds that have a string."""
    return Wide(string) if kind == Kind.WIDE else string
