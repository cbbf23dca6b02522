"""The tables of directive words and of marks: what may follow a word, whether its branch is taken, and the mark of each sort of line."""
from manual import codes, meaning, rows
from product import marks

# With these settings A is there and B is not.
SETTINGS = ["-D", "A=0"]
# Of a row's last two cells: files in which {} is the row's word, with their marks or the refusal.
WORDS = {
    ("a blank, then an expression that is 0 or 1", "it is 1"): [
        ("{} 1\n!endif", "45"),
        ("{}\t0 # none\n!endif", "35"),
        ("{}(1)\n!endif", 22),
        ("{} 2\n!endif", 13),
        ("{} '1'\n!endif", 13),
        ("!if 0\n{} 1\nx\n!endif\n!endif", "32025"),
    ],
    ("a blank, then a macro as `NAME` or, in the old edition, `$(NAME)`", "that macro is set, whatever its value"): [
        ("{} A\n!endif", "45"),
        ("{}\t$(A) # set\n!endif", "45"),
        ("{} B\n!endif", "35"),
        ("{} B\n!endif\nDEFINE B = 0\n{} B\n!endif", "35645"),
        ("{}$(A)\n!endif", 22),
        ("{} g.A\n!endif", 22),
    ],
    ("the same", "it is not set"): [
        ("{} A\n!endif", "35"),
        ("{}\t$(B)\n!endif", "45"),
        ("DEFINE B = ''\n{} B\n!endif", "635"),
        ("{}$(B)\n!endif", 22),
        ("{} g.A\n!endif", 22),
    ],
    ("as `!if`", "no earlier branch of the group was, and it is 1"): [
        ("!if 0\n{} 1\n!endif", "345"),
        ("!if 0\n{} 0\n{} 1\n{} 1\n!endif", "33425"),
        ("!if 1\n{} 1\n!endif", "425"),
        ("!if 0\n{}(1)\n!endif", 22),
        ("!if 0\n{} 2\n!endif", 13),
    ],
    ("nothing", "no earlier branch of the group was"): [
        ("!if 0\n{} # no\n!endif", "345"),
        ("!if 1\n{}\n!endif", "435"),
        ("!if 0\n!elseif 1\n{}\n!endif", "3435"),
        ("!if 0\n{} 1\n!endif", 22),
    ],
    ("nothing", ""): [("!if 1\n{}# end", "45"), ("!if 1\n{} 1", 22)],
    ("anything: these lines are plain", ""): [("{}", "1"), ("{} @ '", "1"), ("!if 0\n{} 1\n!endif", "305")],
}
# A file whose second line is such a line.
MARKS = {
    "plain, and dropped: it is in a branch that is not taken": "!if 0\nx\n!endif",
    "plain, and kept": "!if 1\nx\n!endif",
    "a directive that is not read": "!if 1\n!elseif @\n!endif",
    "a directive that is read, and the branch after it is not taken": "!if 1\n!else\n!endif",
    "a directive that is read, and the branch after it is taken": "!if 0\n!else\n!endif",
    "an `!endif` that is read": "!if 0\n!endif",
    "plain, and kept, and it sets a macro": "!if 1\nDEFINE B = 1\n!endif",
}


def checks():
    found = rows("Lines and directives", "word", "what follows it", "its branch is taken if")
    yield "rows of words", len(found), len(WORDS)
    for cell, *told in found:
        # The words of a row are two spellings of one, or do the same.
        for word in codes(cell):
            for file, wanted in meaning(WORDS, tuple(told)):
                yield file.format(word, word, word), marks(file.format(word, word, word), *SETTINGS), wanted
    words = {word for row in found for word in codes(row[0])}
    yield "words", words, {"!if", "!ifdef", "!ifndef", "!elseif", "!elif", "!else", "!endif", "!include", "!error"}
    found = rows("Lines and directives", "mark", "the line is")
    yield "marks", [mark for mark, _ in found], list("0123456")
    for mark, told in found:
        yield told, marks(meaning(MARKS, told))[1], mark
