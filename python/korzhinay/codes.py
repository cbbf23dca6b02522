"""The codes of the library, as the enums of include/korzhinay.h have them."""

from __future__ import annotations

from enum import IntEnum


class Edition(IntEnum):
    """The editions of the language. Whatever the new one accepts, the old one accepts with the same answer."""

    NEW = 0
    OLD = 1  # with bare words after == != EQ NE, and with `$(NAME)` after !ifdef and !ifndef


class Kind(IntEnum):
    """The kinds of a value."""

    NUMBER = 0
    STRING = 1
    WIDE = 2


class Code(IntEnum):
    """The codes of tokens."""

    NUMBER = 0
    TRUTH = 1
    STRING = 2
    WIDE = 3
    MACRO = 4
    PCD = 5
    BARE = 6  # a bare word, in the old edition only
    OPEN = 10
    CLOSE = 11
    QUESTION = 12
    COLON = 13
    NOT = 14  # ! NOT not
    COMPLEMENT = 15  # ~
    PLUS = 16
    MINUS = 17
    TIMES = 18
    DIVIDE = 19
    REMAINDER = 20
    SHIFT_LEFT = 21
    SHIFT_RIGHT = 22
    LESS = 23  # < LT
    LESS_EQUAL = 24  # <= LE
    GREATER = 25  # > GT
    GREATER_EQUAL = 26  # >= GE
    EQUAL = 27  # == EQ
    NOT_EQUAL = 28  # != NE
    BIT_AND = 29
    BIT_XOR = 30
    BIT_OR = 31
    AND = 32  # && AND and
    XOR = 33  # XOR xor
    OR_BARS = 34  # ||
    OR = 35  # OR or


class Datum(IntEnum):
    """The datum types of a field."""

    VOID = 0
    BOOLEAN = 1
    UINT8 = 2
    UINT16 = 3
    UINT32 = 4
    UINT64 = 5


class Mark(IntEnum):
    """The marks of lines. A directive is read if the outcome depends on it."""

    DROPPED = 0  # a plain line in a branch that is not taken
    KEPT = 1  # a plain line that is kept
    UNREAD = 2  # a directive of which only the word was looked at
    NOT_TAKEN = 3  # a directive that was read; the branch after it is not taken
    TAKEN = 4  # a directive that was read; the branch after it is taken
    END = 5  # an `!endif` that was read
    DEFINE = 6  # a plain line that is kept and sets a macro
    REFUSED = 255  # every byte of the C call's marks after a refusal; no `Selection` has it


class Memory(IntEnum):
    """Which of the two texts of an evaluation holds the bytes of a string."""

    EXPRESSION = 0
    TABLE = 1
