"""One record of a table of settings."""

from __future__ import annotations

import struct
from typing import Final, Tuple

from . import raw
from .codes import Kind
from .content import ContentLike, Wide
from .limits import MAX_NAME_BYTES, MAX_NUMBER, MAX_CONTENT_BYTES
from .text import Text, encoded

# The name, the kind, the content's length, six zeros, the content; what is short is filled up with zeros.
LAYOUT: Final = struct.Struct("<%dsBB6x%ds" % (MAX_NAME_BYTES, MAX_CONTENT_BYTES))


def encode(name: Text, content: ContentLike) -> bytes:
    """The record of a setting. A ValueError says why no record can hold it."""
    key = encoded(name)
    shown = repr(key)[1:]
    if len(key) > MAX_NAME_BYTES:
        raise ValueError("%s: a name of %d bytes, and a record holds %d" % (shown, len(key), MAX_NAME_BYTES))
    kind, held = kind_and_bytes(shown, content)
    if len(held) > MAX_CONTENT_BYTES:
        raise ValueError("%s: a string of %d bytes, and a record holds %d" % (shown, len(held), MAX_CONTENT_BYTES))
    made = LAYOUT.pack(key, kind, len(held), held)
    # What a name is, the library decides: it finds a record by its name, and finds nothing by any other bytes.
    refusal, found, _, _ = raw.lookup(made, key)
    if refusal or found == raw.MISSING:
        raise ValueError("%s names no macro (A-Z, then A-Z, 0-9 and _) and no PCD (two words with a . between them)" % shown)
    return made


def kind_and_bytes(shown: str, content: ContentLike) -> Tuple[Kind, bytes]:
    """A content as a record has it."""
    if isinstance(content, int):
        if not 0 <= content <= MAX_NUMBER:
            raise ValueError("%s: %d is no number from 0 to 2^64 - 1" % (shown, content))
        return Kind.NUMBER, content.to_bytes(8, "little")
    if isinstance(content, Wide):
        return Kind.WIDE, content.string
    try:
        return Kind.STRING, encoded(content)
    except TypeError:
        raise TypeError("%s: a setting is int, bool, bytes, str or Wide, not %s" % (shown, type(content).__name__)) from None


def name_of(made: bytes) -> str:
    """The name in a record."""
    name, *_ = LAYOUT.unpack(made)
    text: str = name.rstrip(b"\0").decode("ascii")
    return text
