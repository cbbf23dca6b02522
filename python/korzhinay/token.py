"""One token of an expression."""

from __future__ import annotations

from dataclasses import dataclass

from .codes import Code


@dataclass(frozen=True)
class Token:
    """A token: its code, where it starts, counted from 0, its length in bytes, its value and its text.

    The text has its quotes and `L`, or `$(` and `)`. The value is that of a number or a truth word, and 0 for any other token.
    """

    code: Code
    start: int
    length: int
    value: int
    text: bytes
