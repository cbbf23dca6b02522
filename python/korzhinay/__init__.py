"""Korzhinay: expressions, PCD data fields and lines of EDK II description files, decided by a proved library.

    evaluate    the value of an expression              tokens       its tokens
    field       the bytes of a PCD data field           check_table  whether bytes are a table of settings
    select      the lines of a file that are kept       Table        a table of settings

`Edition` names the edition of the language that a call takes. A refusal by the rules is always the exception `Refused`. `korzhinay.limits`
has the limits. Loading the library may raise an ImportError, which says where it was looked for; the environment variable KORZHINAY_LIBRARY
can name it.
"""

from . import limits
from .calls import check_table, evaluate, field, select, tokens
from .codes import Code, Datum, Edition, Kind, Mark
from .content import Content, ContentLike, Wide
from .refusal import MEANINGS, Refused
from .selection import Selection
from .table import Settings, Table, TableLike
from .text import Text
from .token import Token
from .value import Value

__version__ = "0.3.0"

__all__ = [
    "MEANINGS",
    "Code",
    "Content",
    "ContentLike",
    "Datum",
    "Edition",
    "Kind",
    "Mark",
    "Refused",
    "Selection",
    "Settings",
    "Table",
    "TableLike",
    "Text",
    "Token",
    "Value",
    "Wide",
    "__version__",
    "check_table",
    "evaluate",
    "field",
    "limits",
    "select",
    "tokens",
]
