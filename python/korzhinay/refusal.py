"""Refusals: an input that the rules do not accept, with the number of the rule."""

from __future__ import annotations

from typing import Final, Mapping, Tuple

from .token import Token

MEANINGS: Final[Mapping[int, str]] = {
    1: "the table of settings is malformed",
    2: "the expression is longer than 1,024 bytes",
    3: "no token can be read at some byte",
    4: "a number literal is above 2^64 - 1",
    5: "something follows token 200",
    6: "at some token `(` outnumber `)` by more than 16",
    7: "the tokens form no expression",
    8: "`|` or `||` stands outside parentheses",
    9: "a PCD is not in the table",
    10: "an operator does not take operands of these kinds",
    11: "a result is below 0 or above 2^64 - 1",
    12: "zero divisor",
    13: "a condition has to be the number 0 or the number 1",
    14: "the file is longer than 65,536 bytes",
    15: "the file has more than 4,096 lines",
    16: "there are fewer marks than lines",
    17: "the line is longer than 1,024 bytes",
    18: "unknown directive",
    19: "the directive has no open `!if`, or comes after its `!else`",
    20: "16 groups are open already",
    21: "this `!if` is still open at the end of the file",
    22: "the text after the line's word is not what it takes",
    23: "unknown datum type",
    24: "the value's kind does not suit the datum type",
    25: "the number is too large for the datum type",
    26: "the buffer is shorter than the field",
    27: "DEFINE lines set more than 64 macros",
    28: "DEFINE sets a string of more than 56 bytes",
}
"""What each number means."""

UNKNOWN: Final = "unknown refusal"
"""What any other number means: that of a library which knows more refusals than this module."""

PLACED: Final = range(3, 13)
"""The numbers of the refusals that have an offset of their own; that of all others is 0."""


class Refused(Exception):
    """A refusal of an input by the rules.

    `number` is the refusal's number, from 1 to 28, and `meaning` says it in words. `line` is the line of a selection, counted from 1; it is
    0 for expressions, fields and tables, and where a selection has no line (1, 14 and 15). `offset` is that of the byte at fault, counted
    from 0, in the expression or in the line; only 3 to 12 have one, and for all others it is 0. `tokens` are those that `tokens` read
    before the fault; no other call has any.

    >>> print(Refused(12, line=4, offset=6))
    refused (12): zero divisor, in line 4 at offset 6
    """

    # The name under which tracebacks show it, and callers import it.
    __module__ = "korzhinay"

    def __init__(self, number: int, line: int = 0, offset: int = 0, tokens: Tuple[Token, ...] = ()) -> None:
        # These are what repr shows, and what a copy is made with.
        super().__init__(number, line, offset, tokens)
        self.number = number
        self.line = line
        self.offset = offset
        self.tokens = tokens

    @property
    def meaning(self) -> str:
        """What the number means."""
        return MEANINGS.get(self.number, UNKNOWN)

    def __str__(self) -> str:
        said = "refused (%d): %s" % (self.number, self.meaning)
        places = []
        if self.line:
            places.append("in line %d" % self.line)
        if self.number in PLACED:
            places.append("at offset %d" % self.offset)
        return said + ", " + " ".join(places) if places else said
