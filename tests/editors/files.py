"""Description files that are refused, or on which there is a note, with the place at which an editor has to be: name, content, line, column
in bytes, and the column in Emacs if it is another one."""
import collections

File = collections.namedtuple("File", "name content line column emacs", defaults=[None])

FILES = {
    "an operator": File("board.dsc", "a\n!if 0\n!elseif 1 / 0\n!endif\n", 3, 11),
    "a byte that starts no token": File("board.dsc", "!if 1\n!endif\n    !if $(A) == @ # c\n!endif\n", 3, 17),
    "a word without quotes": File("board.dsc", "!ifdef A\n!endif\n!if DEBUG == $(TARGET)\n!endif\n", 3, 5),
    "kinds": File("Sea Buoy.dsc", '!if $(TARGET) == "DEBUG"\n!endif\n', 1, 15),
    "a PCD": File("silicon/spar/Board-7.fdf.inc", "x\n!if 1 OR gBuoy.PcdCells\n!endif\n", 2, 10),
    # The cursor cannot be after the last byte of a line in Vim, which stays at that byte.
    "the end of a line": File("board.dsc", "!if (1\n!endif\n", 1, 6, 7),
    "the end of a line with CR LF": File("board.dsc", "a\r\n!if (1\r\n!endif\r\n", 2, 6, 7),
    "a comment": File("board.dsc", "!if 1 + # two\n!endif\n", 1, 9),
    "a directive with blanks before it": File("board.dsc", "a\n!if 1\n   !elsif 2\n", 3, 4),
    "a condition": File("board.dsc", "\n\n  !if 2\n!endif\n", 3, 3),
    "an open group": File("board.dsc", "!if 1\n !ifdef A\nx\n", 2, 2),
    "a stray directive": File("board.dsc", "!if 1\n!else\n!elseif 1\n!endif\n", 3, 1),
    "too many lines": File("board.dsc", "\n" * 4097, 1, 1),
    "too many bytes": File("board.dsc", ("x" * 1000 + "\n") * 66, 1, 1),
    "a long line": File("board.dsc", "a\n" + "x" * 1025 + "\n", 2, 1),
    "a path after DEFINE": File("Sea Buoy.dsc", "[Defines]\n  DEFINE LAMP = $(PKG)/Lamp.inf\n", 2, 24),
    "a DEFINE of another shape": File("board.dsc", "!if 1\n   DEFINE Lamp = 1\n!endif\n", 2, 4),
    "a long string after DEFINE": File("board.dsc", "a\n  DEFINE A = '%s'\n" % ("x" * 57), 2, 3),
}

# Accepted, with a note.
NOTED = {
    "a macro that is not set": File("board.dsc", "a\n  !if $(CELS) > 4\nb\n!endif\n", 2, 7),
    "a line that is not obeyed": File("silicon/Board 7.dsc", "a\n\n  !include b.inc\n", 3, 3),
    "a CR": File("board.dsc", "ab\rc\n", 1, 3),
    "a macro of a DEFINE that is not set": File("board.dsc", "a\n  DEFINE A = 1 + $(CELS)\n", 2, 18),
}

# By default Emacs takes columns for those of the screen, where a tab ends at the next eighth, so it is at the end of the tab.
TAB = File("board.dsc", "a\n\t!if 1 / 0\n!endif\n", 2, 8, 2)
