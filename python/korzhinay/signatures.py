"""The functions of include/korzhinay.h, as ctypes declares them."""

from __future__ import annotations

from ctypes import POINTER, c_char_p, c_size_t, c_uint8, c_uint16, c_uint64
from typing import Any, Final, Mapping, Sequence

from .limits import MAX_TOKENS

# Bytes that are read; bytes that are lent to be written, as many as the length after them says.
READ: Final = c_char_p
LENT: Final = POINTER(c_uint8)

SIGNATURES: Final[Mapping[str, Sequence[Any]]] = {
    "korzhinay_table": (c_uint8, READ, c_size_t),
    "korzhinay_lookup": (c_uint8, READ, c_size_t, READ, c_size_t, c_uint64 * 3),
    "korzhinay_tokens": (
        None,
        READ,
        c_size_t,
        c_uint8,
        c_uint64 * 3,
        c_uint8 * MAX_TOKENS,
        c_uint16 * MAX_TOKENS,
        c_uint16 * MAX_TOKENS,
        c_uint64 * MAX_TOKENS,
    ),
    "korzhinay_evaluate": (c_uint8, READ, c_size_t, READ, c_size_t, c_uint8, c_uint64 * 7),
    "korzhinay_field": (c_uint8, LENT, c_size_t, READ, c_size_t, READ, c_size_t, c_uint8, c_uint8, c_uint64 * 2),
    "korzhinay_select": (c_uint8, LENT, c_size_t, READ, c_size_t, READ, c_size_t, c_uint8, c_uint64 * 4),
}
"""Of each function its result and its parameters. An array of another length than the declared one is a TypeError of ctypes."""
