"""Selection, one line at a time: how a file is cut into lines, which lines are plain, and directive words. Worked out by hand from
document 01 (Lines and directives) and the decisions in docs/DECISIONS.md.

A vector is a file and its answer: the marks as digits and the count of operators, or the refusal's number, line and offset; the offset is
left out where the refusal has no place.
"""

# Nothing here depends on a table; each is tried with an empty one and with that of settings.py.
VECTORS = [
    # no byte, no line; an LF alone ends an empty line, and what follows the last LF is a line only if there is something
    (b"", ("", 0)),
    (b"\n", ("1", 0)),
    (b"\n\n\n", ("111", 0)),
    (b"x", ("1", 0)),
    (b"x\n", ("1", 0)),
    (b"x\ny", ("11", 0)),
    (b"x\ny\n", ("11", 0)),
    (b"\nx", ("11", 0)),
    (b"x\n\n", ("11", 0)),
    (b" ", ("1", 0)),
    (b"\n ", ("11", 0)),
    (b"\0", ("1", 0)),
    (b"x\0!if 1\ny", ("11", 0)),
    # CR: part of the end only directly before an LF, and only one
    (b"\r\n", ("1", 0)),
    (b"\r", ("1", 0)),
    (b"\n\r", ("11", 0)),
    (b"\r\r\n\r\n", ("11", 0)),
    (b"x\r\ny\r\n", ("11", 0)),
    (b"x\ry", ("1", 0)),
    (b"x\r!if 1\r", ("1", 0)),
    (b"!if 1\r\nx\r\n!else\r\ny\r\n!endif\r\nz\r\n", ("413051", 0)),
    (b"!if 1\r\nx\n!else\ny\r\n!endif\nz", ("413051", 0)),
    (b"!if 0\r\n!elseif 1\r\n!endif\r\n", ("345", 0)),  # R32
    (b"!if 1\r", (3, 1, 5)),  # R26
    (b"!if 1\r\n!endif\r", (22, 2)),
    (b"!if 1\n!endif\r", (22, 2)),  # R26
    (b"!if 1\n!else\r", (22, 2)),
    (b"!if 1\r\r\n!endif\r\n", (3, 1, 5)),  # R26
    (b"!if 1\n!else\r\r\n!endif\n", (22, 2)),
    (b"!if 1\n!endif\r\r\n", (22, 2)),
    (b"!if 1\n!endif \r\n", ("45", 0)),
    (b"!if 1\n!endif\r \n", (22, 2)),
    (b"!if 1\r!endif\n", (3, 1, 5)),
    (b"!if 1 # c\r\r\n!endif # c\r\r\n", ("45", 0)),
    (b"!if 1 # c\r\n!endif # c\r", ("45", 0)),
    (b"!if\r\n", (22, 1)),
    (b"!if \r\n", (7, 1, 4)),
    (b"!if 'a\r\n", (3, 1, 4)),
    (b"!if 1 #\r!if 1\n!endif", ("45", 0)),
    (b"!ifndef A1\r\n!endif\r\n", ("45", 0)),
    (b"!ifndef A1\r\r\n!endif\r\n", (22, 1)),
    (b"!ifndef A1\r", (22, 1)),
    (b"!include\r\n!error\r", ("11", 0)),
    (b"!\r\n", (18, 1)),
    (b"!if 0\n!else\r\n!endif", ("345", 0)),
    (b"!if 0\n!if 1\r\r\n!endif\r\r\n!endif", ("3225", 0)),
    (b"\r!if 1\n", ("1", 0)),
    # other bytes end no line and are no blanks
    (b"x\x0b!if 1\x0c", ("1", 0)),
    (b"\x0b!if 1\n", ("1", 0)),
    (b"\xa0!if 1\n", ("1", 0)),
    (b"!if\x0b1\n", (22, 1)),
    (b"!if\xa01\n", (22, 1)),
    (b"!if\x001\n", (22, 1)),
    # plain lines
    (b"x !if 1\n", ("1", 0)),
    (b"# !if 1\n", ("1", 0)),
    (b"#!if 1\n", ("1", 0)),
    (b"\"!if 1\"\n", ("1", 0)),
    (b"if 1\nendif\nelse", ("111", 0)),
    (b"[Defines]\n  FOO = 2\n", ("11", 0)),
    (b"$(FOO) == 2\n", ("1", 0)),
    (b"@ ' \" ( 1 / 0\n", ("1", 0)),
    # include and error, whatever follows the word
    (b"!include x.inc\n", ("1", 0)),
    (b"!error no board\n", ("1", 0)),
    (b" \t!include x\n\t !error\n", ("11", 0)),
    (b"!include\n!error\n", ("11", 0)),
    (b"!include1\n!error_\n!include!\n!error#", ("1111", 0)),  # R25
    (b"!include\x80\n!error\xe9", ("11", 0)),
    (b"!if 0\n!include x\n!error x\n!endif\n", ("3005", 0)),
    (b"!if 1\n!include x\n!error x\n!endif\n", ("4115", 0)),
    # blanks before the `!`, and none after it
    (b"  !if 1\n\t!else\n \t !endif\n", ("435", 0)),
    (b"! if 1\n", (18, 1)),
    (b"!\tendif\n", (18, 1)),
    # words: all letters after the `!` and nothing else, small ones as they stand
    (b"!\n", (18, 1)),
    (b"!", (18, 1)),
    (b" \t!", (18, 1)),
    (b"!!if 1\n", (18, 1)),
    (b"!#\n", (18, 1)),
    (b"!1\n", (18, 1)),
    (b"!_if 1\n", (18, 1)),
    (b"!If 1\n", (18, 1)),
    (b"!IF 1\n", (18, 1)),
    (b"!iF 1\n", (18, 1)),
    (b"!IFDEF A\n", (18, 1)),
    (b"!Include x\n", (18, 1)),
    (b"!ERROR\n", (18, 1)),
    (b"!i\n", (18, 1)),
    (b"!ifx\n", (18, 1)),
    (b"!ifd A\n", (18, 1)),
    (b"!ifdefs A\n", (18, 1)),
    (b"!ifnde A\n", (18, 1)),
    (b"!ifndefA\n", (18, 1)),
    (b"!ifelse 1\n", (18, 1)),
    (b"!includes\n", (18, 1)),
    (b"!includ x\n", (18, 1)),
    (b"!errors\n", (18, 1)),
    (b"!define A\n", (18, 1)),
    (b"!undef A\n", (18, 1)),
    (b"!\xe9\n", (18, 1)),
    (b"!\x80if 1\n", (18, 1)),
    (b"x\n!foo\n", (18, 2)),
    (b"x\n\n\n!foo", (18, 4)),
    (b"!if 1\n!end\n!endif\n", (18, 2)),
    (b"!if 1\n!elsif 1\n!endif\n", (18, 2)),
    (b"!if 1\n!elsei 1\n!endif\n", (18, 2)),
    (b"!if 1\n!eliff 1\n!endif\n", (18, 2)),
    (b"!if 1\n!elseIf 1\n!endif\n", (18, 2)),
    (b"!if 1\n!els\n!endif\n", (18, 2)),
    (b"!if 1\n!Else\n!endif\n", (18, 2)),
    (b"!if 1\n!elses\n!endif\n", (18, 2)),
    (b"!if 1\n!endifs\n", (18, 2)),
    (b"!if 1\n!ENDIF\n", (18, 2)),
    (b"!if 1\n!endi\n", (18, 2)),
    # in a dropped branch as well, and inside of groups there
    (b"!if 0\n!foo\n!endif\n", (18, 2)),
    (b"!if 0\n!\n!endif\n", (18, 2)),
    (b"!if 0\n!IF 1\n!endif\n", (18, 2)),
    (b"!if 0\n!includes\n!endif\n", (18, 2)),  # R25
    (b"!if 0\n!ifx\n!endif\n", (18, 2)),  # R25
    (b"!if 1\n!else\n!bad\n!endif\n", (18, 3)),
    (b"!if 0\n!ifdef A\n!if 1\n!elsif\n!endif\n!endif\n!endif\n", (18, 4)),
    # letters only: what follows a word without a blank is text
    (b"!if1\n", (22, 1)),  # R25
    (b"!if_\n", (22, 1)),
    (b"!if\xe9\n", (22, 1)),
    (b"!if!1\n", (22, 1)),
    (b"!ifdef_A\n", (22, 1)),  # R21
    (b"!ifndef2\n", (22, 1)),
    (b"!if 0\n!elseif1\n!endif\n", (22, 2)),  # R21
    (b"!if 0\n!elif_\n!endif\n", (22, 2)),
    (b"!if 1\n!else9\n!endif\n", (22, 2)),  # R25
    (b"!if 1\n!else\xe9\n!endif\n", (22, 2)),
    (b"!if 1\n!endif_x\n", (22, 2)),
    (b"!if 1\n!endif!\n", (22, 2)),
    (b"!if 0\n!if1\n!endif_x\n!endif\n", ("3225", 0)),  # R25
    (b"!if 0\n!if_\n!else9\n!endif\xe9\n!endif\n", ("32225", 0)),
]
