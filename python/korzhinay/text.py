"""What the calls read: bytes, and texts that become bytes."""

from __future__ import annotations

from typing import Union

Text = Union[bytes, str]
"""An expression or a name: its bytes, or a str that is encoded as UTF-8."""


def encoded(text: Text) -> bytes:
    """The bytes of a text. Bytes that Python has escaped in a str, as in `sys.argv`, come back as they were (surrogateescape)."""
    return text.encode("utf-8", "surrogateescape") if isinstance(text, str) else unchanging(text)


def unchanging(data: bytes) -> bytes:
    """Bytes that nobody can change during a call: of a bytearray or another buffer a copy."""
    return data if isinstance(data, bytes) else bytes(memoryview(data))
