"""The first word of a plain line (order 6 of document 02): the whole run of letters, digits and `_` at its first byte that is no blank. A
kept line whose first word is `DEFINE` sets a macro or is refused; any other plain line sets nothing. Worked out by hand from documents 01
and 02 and the decisions in docs/DECISIONS.md.

A vector is a file and its answer: the marks as digits and the count of operators, or the refusal's number, line and offset; the offset is
left out where the refusal has no place. Nothing is set in the table.
"""
RUN = b"ABCDEFGHIJKLMNOPQRSTUVWXYZabcdefghijklmnopqrstuvwxyz0123456789_"
BLANKS = b" \t"
BYTES = [bytes([each]) for each in range(256)]

# After the line: whether A is set.
ASKED = b"\n!ifdef A\n!endif"
SET, NOT_SET = "45", "35"

# Another first word, or none.
OTHERS = [
    b"DEFINED A = 1",  # R53
    b"DEFINES A = 1",
    b"DEFINE_ A = 1",
    b"DEFINE_ = 1",
    b"DEFINE_A = 1",
    b"DEFINE1 A = 1",
    b"DEFINEA = 1",
    b"DEFINEa A = 1",
    b"DEFINEDEFINE A = 1",
    b"DEFIN A = 1",
    b"DEFIN",
    b"D",
    b"EFINE A = 1",
    b"define A = 1",
    b"Define A = 1",
    b"dEFINE A = 1",
    b"DEFINe A = 1",
    b"DEFlNE A = 1",
    b"xDEFINE A = 1",
    b"xDEFINE",
    b"_DEFINE A = 1",
    b"1DEFINE A = 1",
    b"x DEFINE A = 1",
    b"x\rDEFINE A = 1",
    b"#DEFINE A = 1",
    b"# DEFINE A = 1",
    b'"DEFINE A = 1"',
    b"'DEFINE' A = 1",
    b"$(DEFINE) A = 1",
    b"(DEFINE A = 1)",
    b"[DEFINE] A = 1",
    b"[Defines] DEFINE A = 1",
    b"= DEFINE A = 1",
    b"A = 1",
    b"A = DEFINE",
    b"EDK_GLOBAL A = 1",
    b"SET A = 1",
    b"EXPORT DEFINE A = 1",
    b"\xef\xbb\xbfDEFINE A = 1",
    b" \t\rDEFINE A = 1",
    b" \xa0DEFINE A = 1",
    b"\x0b\x0cDEFINE A = 1",
    # include and error are plain, and their first byte is `!`
    b"!include DEFINE A = 1",
    b"!error DEFINE A = 1",
    b"!include\tDEFINE",
    b"",
    b" \t",
]

# Unknown directives.
DIRECTIVES = [b"!DEFINE A = 1", b"!DEFINE", b"!define A = 1", b" !DEFINE A = 1", b"!includeDEFINE A = 1", b"!ifDEFINE A"]


def after(byte):
    """`DEFINE`, this byte and what is missing: blanks end the word and the shape is right; what is in no run ends it, and it is wrong."""
    if byte == b"\n":
        return 22, 1
    if byte in BLANKS:
        return "6" + SET, 0
    return ("1" + NOT_SET, 0) if byte in RUN else (22, 1)


def before(byte):
    """This byte and a good line: only after blanks, and in a line of its own, is `DEFINE` its first word."""
    if byte == b"!":
        return 18, 1
    if byte == b"\n":
        return "16" + SET, 0
    return ("6" + SET if byte in BLANKS else "1" + NOT_SET), 0


VECTORS = [(line + ASKED, ("1" + NOT_SET, 0)) for line in OTHERS]
VECTORS += [(b"x\n" + line + b"\n", (18, 2)) for line in DIRECTIVES]
VECTORS += [(b"DEFINE" + byte + b" A = 1" + ASKED, after(byte)) for byte in BYTES]
VECTORS += [(byte + b"DEFINE A = 1" + ASKED, before(byte)) for byte in BYTES]
# A small letter in any place of the word.
for at in range(6):
    VECTORS.append((b"DEFINE"[:at] + b"DEFINE"[at:at + 1].lower() + b"DEFINE"[at + 1:] + b" A = 1" + ASKED, ("1" + NOT_SET, 0)))
