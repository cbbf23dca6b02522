"""The calls. Each is total: for any bytes it returns the answer that the rules define, or raises `Refused`.

Expressions are bytes, or a str that is encoded as UTF-8. A table of settings is a `Table`, its bytes, or a mapping, of which a table is
made for this one call: a ValueError says what no table can hold. A call that reads an expression or a file takes an `Edition`, the old one
by default; anything else is a ValueError. The library keeps no state, so threads may make calls at the same time.
"""

from __future__ import annotations

from typing import Final, Tuple

from . import raw
from .codes import Code, Edition, Kind, Memory
from .content import string_content
from .limits import MAX_FIELD_BYTES, MAX_LINES
from .refusal import Refused
from .selection import Selection
from .table import TableLike, checked, records_of
from .text import Text, encoded, unchanging
from .token import Token
from .value import Value

NO_DATUM: Final = 255


def check_table(records: bytes) -> None:
    """Whether these bytes are a well formed table of settings: Refused (1) if they are not.

    >>> check_table(b"")
    >>> check_table(b"WEEK=50")
    Traceback (most recent call last):
    korzhinay.Refused: refused (1): the table of settings is malformed
    """
    checked(unchanging(records))


def tokens(expression: Text, *, edition: Edition = Edition.OLD) -> Tuple[Token, ...]:
    """The tokens of an expression. Refused (2 to 6) has those that were read before the fault, as its `tokens`.

    >>> [token.text for token in tokens("$(WEEK) GE 48 # late")]
    [b'$(WEEK)', b'GE', b'48']
    """
    text = encoded(expression)
    refusal, offset, found = raw.tokens(text, Edition(edition))
    read = tuple(Token(Code(code), start, length, value, text[start : start + length]) for code, start, length, value in found)
    if refusal:
        raise Refused(refusal, offset=offset, tokens=read)
    return read


def evaluate(expression: Text, table: TableLike = b"", *, edition: Edition = Edition.OLD) -> Value:
    """The value of an expression under a table of settings. Refused (1 to 12) if it has none.

    >>> evaluate("1 + 2 * $(CELLS)", {"CELLS": 3})
    Value(content=7, operators=2)
    >>> evaluate("$(BOARD) == SPAR", {"BOARD": "SPAR"})
    Value(content=1, operators=1)
    >>> evaluate("$(BOARD) == SPAR", {"BOARD": "SPAR"}, edition=Edition.NEW)
    Traceback (most recent call last):
    korzhinay.Refused: refused (3): no token can be read at some byte, at offset 12
    """
    text, records = encoded(expression), records_of(table)
    refusal, kind, number, operators, memory, start, length, offset = raw.evaluate(text, records, Edition(edition))
    if refusal:
        raise Refused(refusal, offset=offset)
    if kind == Kind.NUMBER:
        return Value(number, operators)
    holder = text if memory == Memory.EXPRESSION else records
    return Value(string_content(kind, holder[start : start + length]), operators)


def field(
    expression: Text, datum: int, table: TableLike = b"", *, room: int = MAX_FIELD_BYTES, edition: Edition = Edition.OLD
) -> bytes:
    """The bytes of an expression's value as a PCD datum; `datum` is one of `Datum`. Refused (1 to 12, 23 to 26) if there are none.

    `room` is how many bytes the field may have, as the largest size that a description file allows a VOID* datum.

    >>> from korzhinay import Datum
    >>> field("0x12 << 8 ^ 0x34", Datum.UINT16).hex()
    '3412'
    """
    # Neither number is cut to the size that the library takes: it refuses any other datum, and no field needs more room.
    datum = datum if 0 <= datum <= NO_DATUM else NO_DATUM
    room = max(0, min(room, MAX_FIELD_BYTES))
    refusal, offset, made = raw.field(room, encoded(expression), records_of(table), datum, Edition(edition))
    if refusal:
        raise Refused(refusal, offset=offset)
    return made


def select(file: bytes, table: TableLike = b"", *, edition: Edition = Edition.OLD) -> Selection:
    r"""Which lines of a description file are kept under a table of settings. Refused (1, 3 to 15, 17 to 22, 27, 28) says in which line.

    A file is bytes and never a str, which may have lost the line ends that the file had. A kept DEFINE line sets a macro for the lines
    after it, whatever the table says; the table itself stays as it is.

    >>> select(b"!if $(WEEK) LE 5\nWatchdog.inf\n!endif\n", {"WEEK": 3}).kept()
    b'Watchdog.inf\n'
    >>> select(b"DEFINE WEEK = 50\n!if $(WEEK) LE 5\nWatchdog.inf\n!endif\n", {"WEEK": 3}).marks
    b'\x06\x03\x00\x05'
    """
    text = unchanging(file)
    refusal, line, offset, operators, marks = raw.select(MAX_LINES, text, records_of(table), Edition(edition))
    if refusal:
        raise Refused(refusal, line, offset)
    return Selection(marks, operators, text)
