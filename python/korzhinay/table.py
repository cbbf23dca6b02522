"""Tables of settings: the values of macros and PCDs."""

from __future__ import annotations

from itertools import chain
from types import MappingProxyType
from typing import Iterable, Iterator, List, Mapping, Optional, Protocol, Tuple, Union, runtime_checkable

from . import raw
from .codes import Kind
from .content import Content, ContentLike, string_content
from .limits import MAX_NAME_BYTES, MAX_RECORDS, RECORD_BYTES
from .record import encode, name_of
from .refusal import Refused
from .text import Text, encoded, unchanging


@runtime_checkable
class Settings(Protocol):
    """Settings by their names: a dict, a `Table`, or whatever else has items."""

    def items(self) -> Iterable[Tuple[Text, ContentLike]]:
        """The name and the content of each setting."""


NO_SETTINGS: Settings = MappingProxyType({})


class Table(Mapping[str, Content]):
    """A table of settings, well formed and unchanging, that reads like a dict from names to contents.

    It is made from a mapping, from keywords, or from both. A macro's name is without `$(` and `)`; a PCD's has the name of its token space
    in front. A content is an int or a bool, bytes or a str for a string, or `Wide`. What no record can hold is a ValueError.

    >>> table = Table({"gBuoy.PcdCells": 12}, BOARD="SPAR", SEALED=True)
    >>> table
    Table({'BOARD': b'SPAR', 'SEALED': 1, 'gBuoy.PcdCells': 12})
    >>> "WEEK" in table, table["BOARD"], len(table.with_(WEEK=50)), len(bytes(table))
    (False, b'SPAR', 4, 384)
    """

    __slots__ = ("_records",)

    def __init__(self, settings: Settings = NO_SETTINGS, /, **named: ContentLike) -> None:
        self._records = joined(encode(name, content) for name, content in chain(settings.items(), named.items()))

    @classmethod
    def from_bytes(cls, records: bytes) -> Table:
        """The table that these bytes are; Refused (1) if they are malformed."""
        table = cls()
        table._records = checked(unchanging(records))
        return table

    def __bytes__(self) -> bytes:
        return self._records

    def lookup(self, name: Text) -> Optional[Content]:
        """What the setting of this name holds; None if there is none. Bytes that are no name are in no table."""
        _, kind, start, length = raw.lookup(self._records, encoded(name))
        if kind == raw.MISSING:
            return None
        return start if kind == Kind.NUMBER else string_content(kind, self._records[start : start + length])

    def with_(self, settings: Settings = NO_SETTINGS, /, **named: ContentLike) -> Table:
        """A table with these settings too; they override those of the same name."""
        return Table.from_bytes(joined(chain(cut(self._records), cut(bytes(Table(settings, **named))))))

    def without(self, *names: Text) -> Table:
        """A table without the settings of these names, whether there are any or not."""
        left_out = set(map(encoded, names))
        return Table.from_bytes(joined(record for record in cut(self._records) if encoded(name_of(record)) not in left_out))

    def __getitem__(self, name: Text) -> Content:
        found = self.lookup(name)
        if found is None:
            raise KeyError(name)
        return found

    def __contains__(self, name: object) -> bool:
        return isinstance(name, (bytes, str)) and self.lookup(name) is not None

    def __iter__(self) -> Iterator[str]:
        return map(name_of, cut(self._records))

    def __len__(self) -> int:
        return len(cut(self._records))

    def __repr__(self) -> str:
        return "Table(%r)" % dict(self)


TableLike = Union[bytes, Settings]
"""What a call takes as a table of settings: a `Table`, its bytes, or a mapping of which a table is made for this one call."""


def joined(records: Iterable[bytes]) -> bytes:
    """The table of these records, of which a later one overrides an earlier one of the same name."""
    named = {record[:MAX_NAME_BYTES]: record for record in records}
    if len(named) > MAX_RECORDS:
        raise ValueError("%d names, and a table holds %d" % (len(named), MAX_RECORDS))
    return b"".join(named[name] for name in sorted(named))


def cut(records: bytes) -> List[bytes]:
    """The records of a table, one by one."""
    return [records[at : at + RECORD_BYTES] for at in range(0, len(records), RECORD_BYTES)]


def checked(records: bytes) -> bytes:
    """The same bytes, if they are a well formed table; Refused (1) if they are not."""
    refusal = raw.table(records)
    if refusal:
        raise Refused(refusal)
    return records


def records_of(table: TableLike) -> bytes:
    """The bytes of a table. Bytes are not looked at: the library refuses them if they are malformed."""
    if isinstance(table, Table):
        return bytes(table)
    return bytes(Table(table)) if isinstance(table, Settings) else unchanging(table)
