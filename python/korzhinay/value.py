"""The value of an expression."""

from __future__ import annotations

from dataclasses import dataclass

from .codes import Kind
from .content import Content, Wide, kind_of


@dataclass(frozen=True)
class Value:
    """The value of an expression, and how many operators were applied to find it.

    `content` is an int, bytes or `Wide`, as a table of settings takes it. `number` and `string` are for callers that know which kind it
    has: each is a TypeError for a value that has none. A number is true if it is not 0, as it is for `AND` and `? :`; a string is neither.
    """

    content: Content
    operators: int

    @property
    def kind(self) -> Kind:
        """The kind of the value."""
        return kind_of(self.content)

    @property
    def number(self) -> int:
        """The number."""
        if isinstance(self.content, int):
            return self.content
        raise TypeError("the value is no number: %r" % (self.content,))

    @property
    def string(self) -> bytes:
        """The bytes of the string, or of the wide string."""
        if isinstance(self.content, int):
            raise TypeError("the value is no string: %r" % (self.content,))
        return self.content.string if isinstance(self.content, Wide) else self.content

    def __bool__(self) -> bool:
        return self.number != 0
