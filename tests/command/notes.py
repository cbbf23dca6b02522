"""Notes of select whose inputs are made, or come in many forms."""
import tempfile

from command import answer, answer_beside
from folders import put
from records import record
from tally import chosen

UTF_16 = "-:1:1: note: this looks like UTF-16; convert it to UTF-8"
MARK = "-:1:1: note: the file begins with a byte order mark, which belongs to its first line; save it without one"
UNUSED = "korzhinay: note: no read directive names these settings: "
STRICT = "korzhinay: 1 note under --strict, so nothing is written"


def select(text, *options):
    """Standard output, the lines of standard error and the status of a selection from standard input."""
    output, errors, status = answer(["select", *options, "-"], input=text)
    return output, errors.decode().splitlines(), status


def unset(name, line=1):
    """The note on a macro that is not set, in the first place of its condition."""
    return "-:%d:5: note: $(%s) is not set, so it is the number 0" % (line, name)


def ends(lines):
    """The first and the last of some lines."""
    return "".join(lines[:1]), "".join(lines[-1:])


def similar_names():
    """A set name is similar if it is one letter more, one less, one other or two neighbours turned round away."""
    near = ("CELL", "ELLS", "CELLSS", "XCELLS", "CELXLS", "CELLT", "KELLS", "ECLLS", "CLELS", "CELSL")
    far = ("CEL", "CELLSXY", "XCELLSY", "KELLT", "SELLC", "ECLSL", "BOARD")
    for names, tail in ((near, "; CELLS is set"), (far, "")):
        for name in names:
            wanted = [unset(name) + tail]
            text = b"!if $(%s)\n!endif\n!if $(CELLS)\n!endif\n" % name.encode()
            yield "%s beside CELLS" % name, select(text, "-D", "CELLS=1"), (b"", wanted, 0)


def similar_names_of_files():
    """Names that a table or a file sets are set too."""
    wanted = ["-:1:5: note: $(CELS) is not set, so it is the number 0; CELLS is set"]
    text = b"!if $(CELS)\n!endif\n!if $(CELLS)\n!endif\n"
    with tempfile.TemporaryDirectory() as folder:
        table, settings = put(folder, "a.bin", text=record(b"CELLS", 0, bytes(8))), put(folder, "a.settings", text=b"CELLS=0\n")
        yield "a similar name of a table", select(text, "-t", table), (b"", wanted, 0)
        yield "a similar name of a file", select(text, "-s", settings), (b"", wanted, 0)


def several_similar_names():
    """Similar names are named in their order: all of them up to five, and of more the first five."""
    tails = {1: "; ABA is set", 2: "; ABA and ABB are set", 3: "; ABA, ABB and ABC are set", 5: "; ABA, ABB, ABC, ABD and ABE are set",
             6: "; ABA, ABB, ABC, ABD, ABE and 1 more are set", 9: "; ABA, ABB, ABC, ABD, ABE and 4 more are set"}
    for count, tail in tails.items():
        names = ["AB" + letter for letter in "ABCDEFGHI"[:count]]
        text = "!if $(ABX)\n!endif\n!if %s\n!endif\n" % " OR ".join("$(%s)" % name for name in names)
        options = ["-D%s=0" % name for name in reversed(names)]
        yield "%d similar names" % count, select(text.encode(), *options), (b"", [unset("ABX") + tail], 0)


def short_similar_names():
    """Names of one byte each are not similar; any others that differ by one slip are."""
    for name, other, is_similar in (("A", "AB", True), ("AB", "A", True), ("AB", "B", True), ("AB", "AC", True), ("AB", "BA", True),
                                    ("A", "B", False), ("A", "ABC", False), ("AB", "CD", False)):
        text = "!if $(%s)\n!endif\n!if $(%s)\n!endif\n" % (name, other)
        tail = "; %s is set" % other if is_similar else ""
        yield "%s beside %s" % (name, other), select(text.encode(), "-D", other + "=0"), (b"", [unset(name) + tail], 0)


def similar_name_after_ifdef():
    """A name after `!ifdef` may be written wrongly too."""
    for word, outcome in (("!ifdef", "false"), ("!ifndef", "true")):
        text = "%s CELS\n!endif\n!if $(CELLS)\n!endif\n" % word
        wanted = ["-:1:%d: note: CELS is not set, so `%s` is %s; CELLS is set" % (len(word) + 2, word, outcome)]
        yield "a similar name after %s" % word, select(text.encode(), "-D", "CELLS=0")[1], wanted


def macro_after_ifdef():
    """`!ifdef $(NAME)` is noted at its `$`."""
    wanted = (b"", ["-:1:10: note: $(DEBUG) is not set, so `!ifdef` is false"], 0)
    yield "$(DEBUG) after !ifdef", select(b"\t!ifdef \t$(DEBUG) # c\n!endif\n"), wanted


def comment_after_ifdef():
    """A `#` right after a name ends it."""
    for name in ("A", "$(A)"):
        text = "!ifdef %s#c\na\n!endif\n" % name
        yield "!ifdef %s#c" % name, select(text.encode(), "-D", "A"), (b"a\n", [], 0)
        yield "!ifdef %s#c, not set" % name, select(text.encode()), (b"", ["-:1:8: note: %s is not set, so `!ifdef` is false" % name], 0)


def utf_16():
    """A file in UTF-16 is noted as that, and not for its NUL bytes and its CR."""
    for order in ("utf-16-le", "utf-16-be"):
        text = "\ufeff# Ger\u00e4t\r\n!if 1\r\na\r\n!endif\r\n".encode(order)
        yield "%s" % order, select(text), (text, [UTF_16], 0)


def utf_16_refused():
    """A file in UTF-16 has a byte `!` where somebody sees none, or no word after it."""
    for order, text in (("utf-16-le", "\ufeff# \u0a05! a letter that ends in LF\n"), ("utf-16-be", "\ufeff# a\n\u2192 an arrow\n")):
        output, lines, status = select(text.encode(order))
        wanted = (b"", ("-:2:1: refused (18): unknown directive", UTF_16), 1)
        yield "%s, refused" % order, (output, ends(lines), status), wanted


def utf_16_without_a_mark():
    """A file in UTF-16 is known by its bytes too."""
    output, lines, status = select("!if 1\na\n!endif\n".encode("utf-16-le"))
    wanted = (b"", ("-:1:1: refused (18): unknown directive", UTF_16), 1)
    yield "utf-16-le without a mark, refused", (output, ends(lines), status), wanted
    for order in ("utf-16-le", "utf-16-be"):
        text = "# Ger\u00e4t\na\n".encode(order)
        yield "%s without a mark" % order, select(text), (text, [UTF_16], 0)


def one_wrong_byte():
    """A byte that is wrong is noted if there is only one of it."""
    for byte, note in ((b"\0", "NUL bytes, 1 in all; is this a text file?"), (b"\r", "a CR without an LF after it ends no line; 1 in all")):
        text = b"# a line of text\na%sb\n" % byte
        yield "one byte %r" % byte, select(text), (text, ["-:2:2: note: " + note], 0)


def all_wrong_bytes_of_a_refused_file():
    """A refused file has its refusal first, then every note of its encoding, and no other."""
    text = b"\xef\xbb\xbf!include a\rb\n\0 $(CELS)\n!ifdef DEBUG\n!error\n!endif\n!else\n"
    output, lines, status = select(text)
    places = [line.split(" note: ")[0] for line in lines if " note: " in line]
    refused = "-:6:1: refused (19): the directive has no open `!if`, or comes after its `!else`"
    yield "all notes of an encoding", (output, ends(lines)[0], places, status), (b"", refused, ["-:1:1:", "-:1:14:", "-:2:1:"], 1)
    yield "notes after the refusal", [" note: " in line for line in lines[-3:]], [True] * 3


def strict_with_one_note():
    """A setting that nothing names is a note too."""
    yield "strict with one note", select(b"a\n", "--strict", "-D", "CELLS=8"), (b"", [UNUSED + "CELLS (-D CELLS=8)", STRICT], 1)


def strict_with_an_encoding():
    """Under --strict a byte order mark is enough."""
    yield "strict with a byte order mark", select(b"\xef\xbb\xbfa\n", "--strict"), (b"", [MARK, STRICT], 1)


def forms_of_definitions():
    """An unused setting is named in one form, whatever the form of the option."""
    for options in (["-DCELLS=8"], ["--define", "CELLS=8"], ["--define=CELLS=8"]):
        yield "unused after %s" % " ".join(options), select(b"a\n", *options)[1], [UNUSED + "CELLS (-D CELLS=8)"]


def many_unused():
    """Of more than twenty unused settings the first twenty are named."""
    for count, rest in ((20, ""), (21, ", and 1 more"), (25, ", and 5 more")):
        names = ["N%02d" % number for number in range(count)]
        wanted = UNUSED + ", ".join("%s (-D %s)" % (name, name) for name in names[:20]) + rest
        yield "%d unused settings" % count, select(b"a\n", *["-D" + name for name in names]), (b"a\n", [wanted], 0)


def unused_of_files():
    """Unused settings of the command line, of a file and of standard input are in one line."""
    files = {"buoy.settings": b"# one\n\nBOARD=SPAR\nWEEK=5\n", "a.dsc": b"!if $(WEEK) == 5\na\n!endif\n"}
    words = ["select", "-s", "buoy.settings", "-D", "CELLS=8", "-s", "-", "a.dsc"]
    wanted = UNUSED + "BOARD (buoy.settings:3), CELLS (-D CELLS=8), LAMP (-:2)\n"
    yield "unused of three sorts", answer_beside(files, words, input=b"\nLAMP=1\n"), (b"a\n", wanted.encode(), 0)


def hidden_directives():
    """What looks like a directive after something that looks like a blank is noted, for every word; what is seen hides nothing."""
    for blank in (b"\x0c", b"\x0b", b"\x01", b"\x7f", b"\xff", b"\xc2\xa0", b"\xe3\x80\x80", b"\xe2\x80\x8b", b"\xef\xbb\xbf"):
        text = b"a\n \t%s !else\n" % blank
        wanted = "-:2:3: note: `!else` is no directive here: this byte before it is no blank and no tab"
        yield "!else after %r" % blank, select(text), (text, [wanted], 0)
    for word in ("if", "ifdef", "ifndef", "elseif", "elif", "else", "endif", "include", "error"):
        text = b"\x0c!%s A\n" % word.encode()
        wanted = "-:1:1: note: `!%s` is no directive here: this byte before it is no blank and no tab" % word
        yield "a hidden !%s" % word, select(text), (text, [wanted], 0)
    for text in (b"\x0c!other\n", b"\x0c!ifs\n", b"\x0c!\n", b"\x0cx!if\n", b"x\x0c!if\n", b"\x0c# !if\n", b"\x0c ! if\n"):
        yield "nothing hidden in %r" % text, select(text), (text, [], 0)
    text = b"\xef\xbb\xbf\x0c!if 1\n"
    yield "a byte order mark before a hidden directive", select(text), (text, [MARK], 0)


def hidden_definitions():
    """A DEFINE after something that looks like a blank is noted too; other words are not."""
    for blank in (b"\x0c", b"\x0b", b"\x7f", b"\xff", b"\xc2\xa0", b"\xe2\x80\x8b", b"\xef\xbb\xbf"):
        for rest in (b"DEFINE A = 1", b"\tDEFINE", b"DEFINE=1"):
            text = b"a\n \t%s%s\n" % (blank, rest)
            wanted = ["-:2:3: note: `DEFINE` sets nothing here: this byte before it is no blank and no tab"]
            lines = [line for line in select(text)[1] if "byte order mark" not in line]
            yield "%r after %r" % (rest, blank), lines, wanted
    for text in (b"\x0cDEFINED A = 1\n", b"\x0cdefine A = 1\n", b"\x0c# DEFINE A = 1\n", b"\x0cEDK_GLOBAL A = 1\n"):
        yield "nothing hidden in %r" % text, select(text), (text, [], 0)


def quoted_macros():
    """A macro within quotes is noted where a read condition has it, once for each name."""
    tail = " is in quotes, so it is text and is not replaced"
    for text, wanted in ((b"!if \"a$(A)\" == '$(B)'\n!elseif L\"$(C)\" == L'$(A)'\n!elif '$(D)' == ''\n!endif\n",
                          ["-:1:7: note: $(A)", "-:1:17: note: $(B)", "-:2:11: note: $(C)", "-:3:8: note: $(D)"]),
                         (b"!if 1\n!elseif '$(A)' == ''\n!endif\n!if 0\n!if '$(B)' == ''\n!endif\n!endif\n# '$(C)'\n", []),
                         (b"!if 1 # '$(A)'\n!endif # '$(B)'\n!if '' == '$(a)$A$()'\n!endif\n", [])):
        lines = select(text)[1]
        yield "quoted macros of %r" % text, lines, [each + tail for each in wanted]
    yield "a quoted macro that is set", select(b"!if '$(A)' == '' OR $(A)\n!endif\n", "-D", "A=0")[1], ["-:1:6: note: $(A)" + tail]


def file_names():
    """What a terminal would obey in the name of a file is shown as \\xNN."""
    for name, shown in ((b"a\x1b[2J.dsc", "a\\x1B[2J.dsc"), ("b\u202e.dsc".encode(), "b\\xE2\\x80\\xAE.dsc"),
                        (b"lat\xe9.dsc", "lat\\xE9.dsc"), ("\u65e5.dsc".encode(), "\u65e5.dsc")):
        got = answer_beside({name: b"a\n!if $(CELS)\n!endif\n"}, [b"select", name])
        note = "%s:2:5: note: $(CELS) is not set, so it is the number 0\n" % shown
        yield "a note in %s" % shown, got, (b"a\n", note.encode(), 0)


def checks():
    for part in (similar_names, similar_names_of_files, several_similar_names, short_similar_names, similar_name_after_ifdef,
                 macro_after_ifdef, comment_after_ifdef, utf_16, utf_16_refused, utf_16_without_a_mark, one_wrong_byte,
                 all_wrong_bytes_of_a_refused_file, strict_with_one_note, strict_with_an_encoding, forms_of_definitions, many_unused,
                 unused_of_files, hidden_directives, hidden_definitions, quoted_macros, file_names):
        if chosen(part.__name__, "notes"):
            yield from part()
