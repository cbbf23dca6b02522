"""Characters that never reach a terminal as they are: Python's tables of Unicode say which."""
import unicodedata

from command import answer
from tally import chosen

# Controls, formats, and the separators of lines and paragraphs.
UNSEEN = {"Cc", "Cf", "Zl", "Zp"}
# What a file may have, and a line of it.
FILE, LINE = 65_536, 1_024
# Newer than the tables of some Pythons.
RECENT = [chr(code) for code in range(0x13439, 0x13440)]


def is_unseen(character):
    return unicodedata.category(character) in UNSEEN


def escaped(text):
    """A text's bytes as messages show them."""
    shown = ""
    for character in text.decode("utf-8", "surrogateescape"):
        is_byte = "\udc80" <= character <= "\udcff"
        if is_byte or is_unseen(character) and character != "\t":
            character = "".join("\\x%02X" % byte for byte in character.encode("utf-8", "surrogateescape"))
        shown += character
    return shown


def assigned():
    """Every character that Unicode has, except for LF, which ends a line."""
    for code in range(0x110000):
        character = chr(code)
        if unicodedata.category(character) not in ("Cn", "Cs") and character != "\n":
            yield character


def files():
    """Files that have all characters between them."""
    file, line = b"", b"|"
    for character in assigned():
        line += character.encode()
        if len(line) > LINE - 8:
            file, line = file + line + b"|\n", b"|"
        if len(file) > FILE - LINE:
            yield file
            file = b""
    yield file + line + b"|\n"


def every_character():
    """--annotate shows each character as it is, or escaped."""
    for file in files():
        lines = file.decode().split("\n")[:-1]
        wanted = "".join("%4d 1 | %s\n" % (number, escaped(line.encode())) for number, line in enumerate(lines, 1))
        yield "characters from %r on" % lines[0][1], answer(["select", "--quiet", "--annotate", "-"], input=file), (wanted.encode(), b"", 0)


def recent_characters():
    """Format characters that a Python may not know."""
    text = "".join(RECENT).encode()
    wanted = "   1 1 | %s\n" % "".join("\\x%02X" % byte for byte in text)
    yield "format characters of Unicode 15", answer(["select", "--quiet", "--annotate", "-"], input=text), (wanted.encode(), b"", 0)


def checks():
    for part in (every_character, recent_characters):
        if chosen("unseen_" + part.__name__, "unseen"):
            yield from part()
