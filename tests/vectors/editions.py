"""The two editions of the language (order 5 of document 02). A vector holds in both of them, and has the same answer in both, unless its
answer is a Differ, which has one for each. R41."""
import dataclasses
from typing import Any

NEW, OLD = 0, 1
EDITIONS = {"old": OLD, "new": NEW}

# What the new edition refuses and the old one takes: bare words, and `$(NAME)` after !ifdef and !ifndef.
BAD_TOKEN, MALFORMED_TEXT = 3, 22

# All dialects, of which bit 0 is the edition and the other bits are ignored; and inputs of every call that are tried in all of them (R47).
DIALECTS = range(256)
TRIED_IN_ALL = [b'"a" == a', b"'a' == 'a'", b"!ifdef $(A)\n!endif", b'!if "a" == a\n!endif', b"!ifndef A\n!endif"]
TRIED_IN_ALL += [b'DEFINE A = "a" == a\n!if $(A)\n!endif', b"DEFINE A = 1\n!ifdef $(A)\nx\n!endif", b"DEFINE A = 1\n!if $(A)\nx\n!endif"]


@dataclasses.dataclass(frozen=True)
class Differ:
    """The answers of a vector that has another one in each edition."""

    old: Any
    new: Any


def edition_of(dialect):
    """The edition that a dialect has."""
    return OLD if dialect % 2 else NEW


def wanted_in(edition, answer):
    """The answer that a vector has in an edition."""
    if not isinstance(answer, Differ):
        return answer
    return answer.old if edition == OLD else answer.new


def mapped(made, answer):
    """What a function makes of an answer, or of both."""
    return Differ(made(answer.old), made(answer.new)) if isinstance(answer, Differ) else made(answer)
