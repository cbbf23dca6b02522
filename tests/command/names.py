"""The listing of names: which names, in which order, and where."""
import re

from command import answer, answer_beside
from tally import chosen

BUOY = b"""!if $(WEEK) == 50
a $(PLAIN)
!elseif $(BOARD) == "SPAR" AND gBuoy.Cells > 4
!else
!endif
!ifdef DEBUG
!if $(WEEK) OR $(CELLS)
!endif
!endif
# $(COMMENT)
!if 1 # $(COMMENT)
!if "$(TEXT)" != 'a.b'
!endif
!endif
!if $(WEEK) > 3 AND $(WEEK) < 6
!endif
"""
REFUSED = b"!if 1 / 0\n!endif\n!if $(WEEK) == 3\n!ifdef DEBUG\n!endif\n!elseif gBuoy.Cells\n!endif\n"


def names(*words, files, input=b""):
    """The lines of standard output, standard error and the status; blanks beside each other are one."""
    output, errors, status = answer_beside(files, ["names", *words], input=input)
    return [" ".join(line.split()) for line in output.decode().splitlines()], errors.decode(), status


def set_and_not_set():
    """Macros and PCDs, with the values that are set, and the lines in which they are read and not read."""
    wanted = [
        'macro BOARD "SPAR" a.dsc: not read 3',
        "macro CELLS not set a.dsc: not read 7",
        "macro DEBUG not set a.dsc: read 6",
        "macro WEEK 50 a.dsc: read 1, 15; not read 7",
        "PCD gBuoy.Cells not set a.dsc: not read 3",
    ]
    yield "names of a file", names("-D", "WEEK=50", "-D", "BOARD=SPAR", "a.dsc", files={"a.dsc": BUOY}), (wanted, "", 0)
    wanted = [
        'macro BOARD "SPAR" a.dsc: read 3',
        "macro CELLS not set a.dsc: read 7",
        'macro DEBUG L"x" a.dsc: read 6',
        "macro WEEK 4 a.dsc: read 1, 7, 15",
        "PCD gBuoy.Cells 18446744073709551615 a.dsc: read 3",
    ]
    settings = ["-D", "WEEK=4", "-D", 'DEBUG=L"x"', "-s", "-", "-D", "gBuoy.Cells=0xFFFFFFFFFFFFFFFF"]
    got = names(*settings, "a.dsc", files={"a.dsc": BUOY}, input=b"BOARD = SPAR # a word\n")
    yield "names that are all read", got, (wanted, "", 0)


def columns():
    """All places begin in one column, and so do all names."""
    output = answer(["names", "-D", "WEEK=50", "-D", "BOARD=SPAR", "-"], input=BUOY)[0].decode()
    found = [re.match(r"(macro|PCD) +(\S+) +.*?(-: )", line) for line in output.splitlines()]
    yield "lines of the listing", [each is not None for each in found], [True] * 5
    yield "columns of the listing", len({(each.start(2), each.start(3)) for each in found if each}), 1


def order():
    """Names are sorted by their bytes, macros and PCDs together."""
    text = b"!if 0\n!if $(A_B) OR a.b OR $(AB) OR AC.x OR $(Z) OR _a.b\n!endif\n!endif\n"
    wanted = ["macro AB", "PCD AC.x", "macro A_B", "macro Z", "PCD _a.b", "PCD a.b"]
    listed, errors, status = names("-", files={}, input=text)
    yield "order of names", (listed, errors, status), (["%s not set -: not read 2" % each for each in wanted], "", 0)


def skipped_operands():
    """A name in an operand that is skipped is in a directive that is read."""
    text = b"!if 0 AND $(A) == 3\n!elseif 1 OR $(B)\n!elseif $(C)\n!endif\n"
    wanted = ["macro A not set -: read 1", "macro B not set -: read 2", "macro C not set -: not read 3"]
    yield "names in skipped operands", names("-", files={}, input=text), (wanted, "", 0)


def words_of_directives():
    """`!ifdef` and `!ifndef` name a macro in both forms; other directives name none."""
    text = (b"!ifdef A\r\n!endif\r\n !ifndef\t$(B) # $(X)\r\n!else # $(X)\r\n!ifndef A\r\n!ifdef $(C)\r\n!endif\r\n!endif\r\n"
            b"!endif # $(X)\r\n!include $(X)\r\n!error $(X)\r\n")
    wanted = ["macro A not set -: read 1; not read 5", "macro B not set -: read 3", "macro C not set -: not read 6"]
    yield "names after !ifdef", names("-", files={}, input=text), (wanted, "", 0)


def no_expressions():
    """Of a directive that is no expression names are listed too: what is no token is passed over, a string without its end ends them."""
    text = (b"!if 0\n!if $(A) == $(B) @ $(C)\n!elseif ( a.b + $(D)\n!elseif 1 2 $(E) \x01 $(h) $(F)\n"
            b"!elseif $(G) 'a $(H)\n!endif\n!endif\n")
    lines = {"A": 2, "B": 2, "C": 2, "D": 3, "E": 4, "F": 4, "G": 5}
    wanted = ["macro %s not set -: not read %d" % each for each in lines.items()] + ["PCD a.b not set -: not read 3"]
    yield "names beside faults", names("-", files={}, input=text), (wanted, "", 0)
    listed, errors, status = names("-", files={}, input=b"!if $(A) == @ $(B)\n!endif\n")
    wanted = ["macro A not set -: named in 1", "macro B not set -: named in 1"]
    yield "names after the fault of a refusal", (listed, errors.splitlines()[0], status), (
        wanted, "-:1:13: refused (3): no token can be read at some byte", 1)


def several_files():
    """The places of a name in several files are joined; a file that does not name it is left out."""
    files = {"a.dsc": b"!if $(WEEK)\n!endif\n!ifdef A\n!endif\n",
             "b.dsc": b"!ifdef WEEK\n!ifdef B\n!endif\n!endif\n!if 1\n!elseif $(WEEK)\n!endif\n"}
    wanted = ["macro A not set a.dsc: read 3", "macro B not set b.dsc: not read 2",
              "macro WEEK not set a.dsc: read 1 | b.dsc: read 1; not read 6"]
    yield "names of two files", names("a.dsc", "b.dsc", files=files), (wanted, "", 0)
    wanted = ["macro B not set b.dsc: not read 2", "macro WEEK not set b.dsc: read 1; not read 6 | -: read 2"]
    yield "names of a file and standard input", names("b.dsc", "-", files=files, input=b"\n!ifdef WEEK\n!endif\n"), (wanted, "", 0)


def undefined():
    """A name that -U removes is not set."""
    got = names("-D", "A=1", "-U", "A", "-", files={}, input=b"!ifdef A\n!endif\n")
    yield "an undefined name", got, (["macro A not set -: read 1"], "", 0)


def refused_files():
    """A refused file has its message, and its names all the same; of some it is not known whether they are read."""
    message = "bad.dsc:1:7: refused (12): zero divisor\n    !if 1 / 0\n          ^\n    `/` divides 1 by 0\n"
    wanted = ["macro DEBUG not set bad.dsc: named in 4", "macro WEEK 5 bad.dsc: named in 3", "PCD gBuoy.Cells not set bad.dsc: named in 6"]
    yield "names of a refused file", names("-D", "WEEK=5", "bad.dsc", files={"bad.dsc": REFUSED}), (wanted, message, 1)
    files = {"a.dsc": b"!ifdef DEBUG\n!endif\n", "bad.dsc": REFUSED}
    wanted = ["macro DEBUG not set a.dsc: read 1 | bad.dsc: named in 4"] + wanted[1:]
    yield "names beside a refused file", names("-D", "WEEK=5", "a.dsc", "bad.dsc", files=files), (wanted, message, 1)
    listed, errors, status = names("-", files={}, input=b"!if a.b\n!endif\n")
    yield "a PCD that is not set", (listed, errors.splitlines()[0], status), (
        ["PCD a.b not set -: named in 1"], "-:1:5: refused (9): a PCD is not in the table", 1)


DEFINED = b"""!ifndef CELLS
DEFINE CELLS = $(WEEK) * 2
!endif
!if $(CELLS) > 4
DEFINE BOARD = 'SPAR'
!else
DEFINE BOARD = $(OTHER)
DEFINE LAMP = $(PATH)/Lamp.inf
DEFINE
!endif
DEFINE CELLS = g.Cells + $(CELLS)
!ifdef BOARD
!endif
"""


def defined():
    """A macro that DEFINE lines set has the lines that do, those that would if they were kept, and those that name it."""
    wanted = ["macro BOARD by DEFINE a.dsc: set in 5; DEFINE not read 7; read 12",
              "macro CELLS by DEFINE a.dsc: set in 2, 11; read 1, 4, 11",
              "PCD Lamp.inf not set a.dsc: not read 8",
              "macro LAMP not set a.dsc: DEFINE not read 8",
              "macro OTHER not set a.dsc: not read 7",
              "macro PATH not set a.dsc: not read 8",
              "macro WEEK 3 a.dsc: read 2",
              "PCD g.Cells 8 a.dsc: read 11"]
    wanted.sort(key=lambda row: row.split()[1])
    settings = ["-D", "WEEK=3", "-D", "g.Cells=8"]
    yield "names that lines set", names(*settings, "a.dsc", files={"a.dsc": DEFINED}), (wanted, "", 0)
    wanted = ["macro A 1 a.dsc: set in 1; read 2 | b.dsc: DEFINE not read 2; read 4", "macro B by DEFINE b.dsc: set in 5"]
    files = {"a.dsc": b"DEFINE A = 'x'\n!ifdef A\n!endif\n", "b.dsc": b"!if 0\nDEFINE A = 2\n!endif\n!if $(A)\nDEFINE B = 7\n!endif\n"}
    yield "names that lines of two files set", names("-D", "A", "a.dsc", "b.dsc", files=files), (wanted, "", 0)


def defined_in_a_refused_file():
    """Of a refused file it is not known which lines set anything; a DEFINE of another shape names nothing."""
    text = b"DEFINE A = $(B)\n!if 1 / 0\nDEFINE A = 2\n!endif\nDEFINE $(C) = $(D)\n"
    listed, errors, status = names("-", files={}, input=text)
    wanted = ["macro A not set -: DEFINE in 1, 3", "macro B not set -: named in 1"]
    yield "lines of a refused file", (listed, errors.splitlines()[0], status), (wanted, "-:2:7: refused (12): zero divisor", 1)


def no_raw_bytes():
    """The listing shows nothing that a terminal would obey."""
    output, errors, status = answer([b"names", b"-D", b'A="\x1b[2J\xe9"', b"-"], input=b"!ifdef A\n!endif\n")
    yield "a value of other bytes", (b'"\\x1B[2J\\xE9"' in output, errors, status), (True, b"", 0)


def checks():
    for part in (set_and_not_set, columns, order, skipped_operands, words_of_directives, no_expressions, several_files, undefined,
                 refused_files, defined, defined_in_a_refused_file, no_raw_bytes):
        if chosen("names_" + part.__name__, "names"):
            yield from part()
