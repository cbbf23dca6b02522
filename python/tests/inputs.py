"""Random inputs, the same in every run."""

from __future__ import annotations

import random
from typing import Any, Dict, Iterator, List, Tuple

from korzhinay import Edition, Table, Wide, check_table, evaluate, field, select, tokens

# A call, its arguments, and those with names.
Call = Tuple[Any, List[Any], Dict[str, Any]]

TABLE = Table({"A": 1, "S": b"a", "W": Wide(b"c"), "g.P": 2**64 - 1})

OPERANDS = b"0 1 1 2 7 0xFF TRUE $(A) $(A) $(NOPE) $(S) $(W) g.P g.Missing 'a' L'c'".split()
OPERATORS = b"+ - * / % << >> < <= == != & ^ | && || AND OR XOR LE ? :".split()
# Bare words, and words that are none, after the operators that take them.
COMPARED, WORDS = b"== != EQ NE".split(), b"a _b L AND TRUE".split()
PIECES = OPERANDS + OPERATORS + b"( ) ! ~ NOT # @ 0x 99999999999999999999 a == a L' foo.1".split()
DIRECTIVES = b"!if 1,!if 0,!if $(A),!ifdef A,!ifndef A,!elseif 1,!elif 0,!else,!endif,!endif,plain,".split(b",")
DIRECTIVES += b"!ifdef $(A),!if $(S) == a,!endif,DEFINE A = 0,DEFINE B = $(A) + 1,DEFINE S=$(W),!ifdef B,!endif".split(b",")
LINES = DIRECTIVES + b"!include x,!error,\xff\0,!if 1 / 0,!if 2,!iff,!else x,  !endif # x".split(b",")
LINES += b"DEFINE,DEFINE a = 1,DEFINE A = 1 | 2,DEFINED".split(b",")


class Inputs:
    """A source of inputs. Some are any bytes; most are made of what makes an answer likely, or are at a limit."""

    def __init__(self, seed: int) -> None:
        self.draw = random.Random(seed)

    def any_bytes(self, most: int) -> bytes:
        return bytes(self.draw.getrandbits(8) for _ in range(self.draw.randrange(most + 1)))

    def some(self, known: List[bytes], joint: bytes, most: int) -> bytes:
        return joint.join(self.draw.choices(known, k=self.draw.randrange(most + 1)))

    def repeated(self, known: List[bytes], limits: List[int]) -> bytes:
        """One of these, as often as a limit allows or once more."""
        return self.draw.choice(known) * (self.draw.choice(limits) + self.draw.randrange(2))

    def damaged(self, data: bytes) -> bytes:
        """The data cut off somewhere, or with a byte changed."""
        at = self.draw.randrange(len(data) + 1)
        return data[:at] + self.draw.choice([b"", self.any_bytes(1) + data[at + 1 :]])

    def formula(self, depth: int) -> bytes:
        """What forms an expression."""
        if not depth:
            return self.draw.choice(OPERANDS)
        parts = [self.formula(self.draw.randrange(depth)) for _ in range(3)]
        operator = self.draw.choice(OPERATORS[:-2])
        forms = [b"%s %s %s" % (parts[0], operator, parts[1]), b"(%s %s %s)" % (parts[0], operator, parts[1]), b"!%s" % parts[0]]
        forms.append(b"($(S) %s %s)" % (self.draw.choice(COMPARED), self.draw.choice(WORDS)))
        return self.draw.choice(forms + [b"(%s ? %s : %s)" % tuple(parts)])

    def expression(self) -> bytes:
        sort = self.draw.randrange(8)
        if sort > 3:
            return self.formula(sort - 3)
        at_limits = self.repeated([b"(", b"+", b" "], [16, 200, 1024])
        return [self.any_bytes(40), self.some(PIECES, b" ", 9), self.some(PIECES, b"", 5), at_limits][sort]

    def some_names(self) -> bytes:
        """DEFINE lines of as many names as a file may set, or of one more."""
        return b"".join(b"DEFINE N%02d = 1\n" % each for each in range(64 + self.draw.randrange(2)))

    def file(self) -> bytes:
        sort, end = self.draw.randrange(6), self.draw.choice([b"\n", b"\r\n"])
        if sort == 5:
            return b"x%s!if %s%s!endif%s" % (end, self.expression(), end, end)
        if sort == 4:
            return b"DEFINE C = %s%s!if $(C) == 1%s!endif%s" % (self.expression(), end, end, end)
        at_limits = [self.repeated([b"x"], [1024, 65536]), self.repeated([b"\n", b"!if 0\n", b"!else\n"], [16, 4096])]
        at_limits += [self.some_names(), b"DEFINE A = '%s'" % self.repeated([b"y"], [56])]
        return [self.any_bytes(80), self.some(LINES, end, 12), self.some(DIRECTIVES, end, 9), self.draw.choice(at_limits)][sort]

    def table(self) -> bytes:
        return self.draw.choice([bytes(TABLE)] * 4 + [self.damaged(bytes(TABLE)), self.any_bytes(300)])

    def call(self) -> Call:
        """A call, its arguments and, if it takes one, an edition."""
        edition = {"edition": self.draw.choice(list(Edition))}
        made: List[Call] = [
            (tokens, [self.expression()], edition),
            (evaluate, [self.expression(), self.table()], edition),
            (field, [self.expression(), self.draw.randrange(-2, 8), self.table()], edition),
            (select, [self.file(), self.table()], edition),
            (check_table, [self.table()], {}),
            (Table.from_bytes, [self.table()], {}),
            (TABLE.lookup, [self.expression()], {}),
        ]
        return self.draw.choice(made)


def calls(seed: int, count: int) -> Iterator[Call]:
    """This many calls with their arguments."""
    inputs = Inputs(seed)
    return (inputs.call() for _ in range(count))
