"""What a call ends in."""

from __future__ import annotations

from typing import Any, Callable, Tuple

from korzhinay import Refused


def outcome(call: Callable[..., Any], *given: Any, **named: Any) -> Any:
    """What a call returns, or the number, line and offset of its refusal. Any other exception is a fault of the module."""
    try:
        return call(*given, **named)
    except Refused as refused:
        return place(refused)


def place(refused: Refused) -> Tuple[int, int, int]:
    """Number, line and offset of a refusal."""
    return refused.number, refused.line, refused.offset
