"""The C calls: bytes in, numbers out, a refusal as its number. Every array that a call writes comes from `lend`. A dialect is a byte."""

from __future__ import annotations

import os
from ctypes import Array, c_uint8, c_uint16, c_uint64
from pathlib import Path
from typing import Any, Final, List, Tuple, Type, TypeVar

from .library import load, places
from .limits import MAX_TOKENS

LIBRARY: Final = load(places(os.environ, Path(__file__).resolve().parent))

MISSING: Final = 255
"""The kind that a lookup gives for a name that is not in the table."""

Lent = TypeVar("Lent", bound="Array[Any]")


def lend(array: Type[Lent]) -> Lent:
    """An array of this type that a call may write."""
    return array()


def table(records: bytes) -> int:
    """The refusal of a table, 0 for none."""
    refusal: int = LIBRARY.korzhinay_table(records, len(records))
    return refusal


def lookup(records: bytes, name: bytes) -> Tuple[int, int, int, int]:
    """The refusal, 0 for none; kind, number or start, and length. With a refusal the last three mean nothing."""
    out = lend(c_uint64 * 3)
    refusal: int = LIBRARY.korzhinay_lookup(records, len(records), name, len(name), out)
    kind, number, length = out
    return refusal, kind, number, length


def tokens(expression: bytes, dialect: int) -> Tuple[int, int, List[Tuple[int, int, int, int]]]:
    """The refusal, 0 for none, and its offset; code, start, length and value of each token that was read."""
    out = lend(c_uint64 * 3)
    codes, starts = lend(c_uint8 * MAX_TOKENS), lend(c_uint16 * MAX_TOKENS)
    lengths, values = lend(c_uint16 * MAX_TOKENS), lend(c_uint64 * MAX_TOKENS)
    LIBRARY.korzhinay_tokens(expression, len(expression), dialect, out, codes, starts, lengths, values)
    refusal, count, offset = out
    return refusal, offset, list(zip(codes[:count], starts[:count], lengths[:count], values[:count]))


def evaluate(expression: bytes, records: bytes, dialect: int) -> Tuple[int, ...]:
    """The refusal, 0 for none; kind, number, count of operators, memory, start, length and the refusal's offset."""
    out = lend(c_uint64 * 7)
    refusal: int = LIBRARY.korzhinay_evaluate(expression, len(expression), records, len(records), dialect, out)
    return (refusal, *out)


def field(room: int, expression: bytes, records: bytes, datum: int, dialect: int) -> Tuple[int, int, bytes]:
    """The refusal, 0 for none, and its offset; the bytes of the field, of which there are none with a refusal."""
    buffer, out = lend(c_uint8 * room), lend(c_uint64 * 2)
    refusal: int = LIBRARY.korzhinay_field(buffer, room, expression, len(expression), records, len(records), datum, dialect, out)
    length, offset = out
    return refusal, offset, bytes(buffer[:length])


def select(room: int, file: bytes, records: bytes, dialect: int) -> Tuple[int, int, int, int, bytes]:
    """The refusal, 0 for none, its line and its offset; the count of operators and the marks, of which there are none with a refusal."""
    marks, out = lend(c_uint8 * room), lend(c_uint64 * 4)
    refusal: int = LIBRARY.korzhinay_select(marks, room, file, len(file), records, len(records), dialect, out)
    line, lines, operators, offset = out
    return refusal, line, offset, operators, bytes(marks[:lines])
