"""The limits of the library. Whatever is past one of them is refused, except that no record can hold a longer name or string."""

from __future__ import annotations

from typing import Final

MAX_NUMBER: Final = 2**64 - 1

MAX_EXPRESSION_BYTES: Final = 1_024
MAX_TOKENS: Final = 200
MAX_PARENTHESES: Final = 16
"""How deep parentheses nest."""

MAX_FILE_BYTES: Final = 65_536
MAX_LINES: Final = 4_096
MAX_LINE_BYTES: Final = 1_024
"""Of a line without its end."""
MAX_GROUPS: Final = 16
"""How deep groups nest, from `!if`, `!ifdef` or `!ifndef` to `!endif`."""
MAX_DEFINED: Final = 64
"""How many macros the DEFINE lines of a file set; a macro that is set twice counts once."""

RECORD_BYTES: Final = 128
MAX_RECORDS: Final = 512
MAX_NAME_BYTES: Final = 64
MAX_CONTENT_BYTES: Final = 56
"""Of a string in a table, and of one that a DEFINE line sets; one in an expression may be longer."""

MAX_FIELD_BYTES: Final = 2_044
"""A wide string of 1,021 bytes, each with a zero byte, and two zero bytes."""

STACK: Final = 45_056
"""No call needs more stack than this; it matters for threads that are given very little of it."""
