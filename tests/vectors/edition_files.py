"""Selection in the two editions (order 5 of document 02): bare words in conditions, and `$(NAME)` after !ifdef and !ifndef, of which
arguments.py has every form. Worked out by hand from documents 01 and 02 and the decisions in docs/DECISIONS.md.

A file has `|` for the LF between its lines. An answer is the marks as digits and the count of operators, or the refusal's number, line and
offset; the offset is left out where the refusal has no place. Where the editions differ it is a Differ, the old one's first.
"""
import bare_words
from arguments import READ, unread, within
from editions import BAD_TOKEN, Differ
from offsets import fits
from settings import TABLE, numbers
from tables import STRING, WIDE, record

DEBUG = record(b"TARGET", STRING, b"DEBUG")
RELEASE = record(b"TARGET", STRING, b"RELEASE")
WIDE_DEBUG = record(b"TARGET", WIDE, b"DEBUG")
MALFORMED = TABLE[:-1]

TARGET = b"!if $(TARGET) == DEBUG|a|!else|b|!endif"
EITHER = b"!if $(TARGET) == DEBUG|a|!elseif $(TARGET) == RELEASE|b|!else|c|!endif|d"
TOOLS = b"!ifdef $(GCC)|a|!endif|!ifndef $(CLANG)|b|!else|c|!endif"

FILES = [
    # a setting beside a bare word
    (TARGET, DEBUG, Differ(("41305", 1), (3, 1, 17))),
    (TARGET, RELEASE, Differ(("30415", 1), (3, 1, 17))),
    (TARGET, b"", Differ((10, 1, 14), (3, 1, 17))),  # R17
    (TARGET, numbers(TARGET=0), Differ((10, 1, 14), (3, 1, 17))),
    (TARGET, WIDE_DEBUG, Differ((10, 1, 14), (3, 1, 17))),  # R48
    (TARGET.replace(b"DEBUG", b'"DEBUG"'), DEBUG, ("41305", 1)),
    (TARGET.replace(b"DEBUG", b'"DEBUG"'), b"", (10, 1, 14)),
    (EITHER, DEBUG, Differ(("41203051", 1), (3, 1, 17))),
    (EITHER, RELEASE, Differ(("30413051", 2), (3, 1, 17))),
    (EITHER, record(b"TARGET", STRING, b"NOOPT"), Differ(("30304151", 2), (3, 1, 17))),
    (EITHER.replace(b"DEBUG", b'"DEBUG"'), DEBUG, ("41203051", 1)),
    (EITHER.replace(b"DEBUG", b'"DEBUG"'), RELEASE, Differ(("30413051", 2), (3, 3, 21))),
    (b"!if $(TARGET) == TARGET|!endif", record(b"TARGET", STRING, b"TARGET"), Differ(("45", 1), (3, 1, 17))),
    (b"!if DEBUG == $(TARGET)|!endif", DEBUG, (3, 1, 4)),
    (b"!if $(TARGET)|!endif", DEBUG, (13, 1)),
    (b"!if DEBUG|!endif", DEBUG, (3, 1, 4)),
    # `$(NAME)` after !ifdef and !ifndef
    (TOOLS, numbers(GCC=0), Differ(("41541305", 0), (22, 1))),
    (TOOLS, numbers(GCC=0, CLANG=0), Differ(("41530415", 0), (22, 1))),
    (TOOLS, b"", Differ(("30541305", 0), (22, 1))),
    (b"!ifdef GCC|!ifndef $(CLANG)|a|!endif|!endif", numbers(GCC=1), Differ(("44155", 0), (22, 2))),
    (b"!ifdef GCC|!ifndef $(CLANG)|a|!endif|!endif", b"", ("32025", 0)),
    (b"!if 1|!else|!ifdef $(A|!ifndef $(A)|!endif|!endif|!endif", b"", ("4322225", 0)),
    (b"!ifdef $(A)|!else x|!endif", b"", Differ((22, 2), (22, 1))),
    (b"x|\t!ifdef $(A) # c|!endif", numbers(A=1), Differ(("145", 0), (22, 2))),
    (b"!include $(A)|!error == a", b"", ("11", 0)),
    # not read, so not looked at in either edition
    (b"!if 0|!if 1 == a|!ifdef $(A)|!endif|!elif 1 == a|!endif|!endif", b"", ("3222225", 0)),
    (b"!if 1|!elseif $(TARGET) == DEBUG|!endif", b"", ("425", 0)),
    (b"!if 0|!elif 1|!elif == a|!else|!endif", b"", ("34235", 0)),
    # the first line that is refused decides, so another one may in the other edition
    (b"!if $(TARGET) == DEBUG|!endif|!if 1 / 0", DEBUG, Differ((12, 3, 6), (3, 1, 17))),
    (b"!if $(TARGET) == DEBUG|!foo", DEBUG, Differ((18, 2), (3, 1, 17))),
    (b"!ifdef $(A)|!foo", b"", Differ((18, 2), (22, 1))),
    (b"!ifdef $(A)|!if 1 == a|!endif|!endif", numbers(A=1), Differ((10, 2, 6), (22, 1))),
    (b"!if 'a' == a|!ifdef $(A)|!endif|!endif", b"", Differ(("4355", 1), (3, 1, 11))),
    (b"!foo|!if 'a' == a|!endif", b"", (18, 1)),
    (b"!if 1 / 0|!if 'a' == a|!endif|!endif", b"", (12, 1, 6)),
    (b"!if 'a' == a|", b"", Differ((21, 1), (3, 1, 11))),
    (b"!ifndef $(A)|", b"", Differ((21, 1), (22, 1))),
    (b"!if 1|!if 'a' == b|!endif", b"", Differ((21, 1), (3, 2, 11))),
    # 1, 14 and 15, and 17 to 20 in its line, come first in both
    (b"!if 'a' == a|!endif", MALFORMED, (1, 0)),
    (b"!ifdef $(A)|!endif", MALFORMED, (1, 0)),
    (b"!ifdef $(A)|" + b"x" * 65536, b"", (14, 0)),
    (b"!if 'a' == a" + b"|" * 4097, b"", (15, 0)),
    (b"!if 'a' == a" + b" " * 1013 + b"|!endif", b"", (17, 1)),
    (b"!if '' != " + b"a" * 1015 + b"|!endif", b"", (17, 1)),
    (b"!ifdef $(" + b"A" * 1015 + b")|!endif", b"", (17, 1)),
    (b"!iff 'a' == a", b"", (18, 1)),
    (b"!elseif 'a' == a", b"", (19, 1)),
    (b"!if 1|!else|!elif 'a' == a", b"", (19, 3)),
    (b"!if 1|" * 16 + b"!if 'a' == a", b"", (20, 17)),
    (b"!if 1|" * 16 + b"!ifdef $(A)", b"", (20, 17)),
    # 22 before the expression
    (b"!if'a' == a|!endif", b"", (22, 1)),
    (b"!if== a|!endif", b"", (22, 1)),
    # 13
    (b"!if ('a' == a) + 1|!endif", b"", Differ((13, 1), (3, 1, 12))),
    (b"!if 'a' == a ? 'b' : 'c'|!endif", b"", Differ((13, 1), (3, 1, 11))),
    # the line's end: CR LF, a CR that belongs to the line (R26), none
    (b"!if 'a' == a\r|!endif\r|", b"", Differ(("45", 1), (3, 1, 11))),
    (b"!if 'a' == a\r\r|!endif\r|", b"", Differ((3, 1, 12), (3, 1, 11))),
    (b"!if 1|!endif|!if 'a' == a\r", b"", Differ((3, 3, 12), (3, 3, 11))),
    (b"!if 1|!endif|!if 'a' == a", b"", Differ((21, 3), (3, 3, 11))),
    (b"!ifdef $(A)\r|!endif\r|", b"", Differ(("35", 0), (22, 1))),
    (b"!ifdef $(A)\r", b"", (22, 1)),
    # lines of 1,024 bytes
    (b"!if '' != " + b"a" * 1014 + b"|!endif", b"", Differ(("45", 1), (3, 1, 10))),
    (b"!if" + b" " * 1014 + b"''!=abc|!endif", b"", Differ(("45", 1), (3, 1, 1021))),
    (b"!ifndef $(" + b"A" * 1013 + b")|!endif", b"", Differ(("45", 0), (22, 1))),
    # the count is of what is read
    (b"|".join([b"!if 'a' == a|!elif 'a' == b|!endif"] * 100), b"", Differ(("425" * 100, 100), (3, 1, 11))),
    (b"|".join([b"!if 'a' == b|!elif 'a' NE b|!endif"] * 100), b"", Differ(("345" * 100, 200), (3, 1, 11))),
]
# Bars, which need no parentheses in directives: one line, with no `|` for an LF, and its `!endif`.
BARS = [
    (b"!if 'a' == a || 1 / 0", Differ(("45", 2), (3, 1, 11))),
    (b"!if 'a' == b | 'c' == c", Differ(("45", 3), (3, 1, 11))),
    (b"!if 1 || 'a' == a", Differ(("45", 1), (3, 1, 16))),
    (b"!if 'a' == a || b", Differ((3, 1, 16), (3, 1, 11))),
    (b"!if 1 == a || 1", Differ((10, 1, 6), (3, 1, 9))),
]
VECTORS = [(file.replace(b"|", b"\n"), table, wanted) for file, table, wanted in FILES]
VECTORS += [(line + b"\n!endif", b"", wanted) for line, wanted in BARS]


def outcome(number, count):
    """What a condition of this value is: its mark and count, or 13."""
    return (3 + number, count) if number <= 1 else 13


# Every expression with a bare word that the old edition accepts, as a condition that is read and as one that is not.
CONDITIONS = []
for text, number, count, place in bare_words.ACCEPTED_IN_OLD:
    for before, front, word, after, back in READ:
        if fits(word + b" ", text):
            in_new = BAD_TOKEN, len(front) + 1, len(word) + 1 + place
            wanted = Differ(within(outcome(number, count), front, back), in_new)
            CONDITIONS.append((before + word + b" " + text + after, TABLE, wanted))
    if fits(b"!elseif ", text):
        CONDITIONS += [(file, TABLE, wanted) for file, wanted in unread(b" " + text)]
