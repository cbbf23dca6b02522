"""Gathers the refusals of expressions with their places, and what each call has to say of them: the value, the tokens, a field, and a
selection in which the expression follows a word.

An expression with a refusal is (expression, refusal), and a refusal its number and offset, or a Differ of two.
"""
import bad_tokens
import bare_words
import competing
import faults
import outside
import refusals
import underived
import wrong_kinds
from editions import BAD_TOKEN, OLD, Differ, mapped, wanted_in
from settings import TABLE

LISTS = [refusals, competing, bad_tokens, bare_words, underived, outside, wrong_kinds, faults]
EXPRESSIONS = [(front + back, (number, len(front))) for each in LISTS for front, back, number in each.VECTORS]
EXPRESSIONS += [(text, Differ(old, (BAD_TOKEN, word))) for text, old, word in bare_words.REFUSED_IN_OLD]

BAR = 8
# The refusals of tokens; all later ones are none of that call.
OF_TOKENS = range(2, 7)
NO_REFUSAL = 0, 0


def of_tokens(refusal):
    return refusal if refusal[0] in OF_TOKENS else NO_REFUSAL


TOKENS = [(text, mapped(of_tokens, refusal)) for text, refusal in EXPRESSIONS]
TOKENS += [(text, Differ(NO_REFUSAL, (BAD_TOKEN, word))) for text, *_, word in bare_words.ACCEPTED_IN_OLD]

# A datum and a buffer that are right for numbers, and an unknown datum without a buffer: the expression's own refusal comes first.
UINT64, UNKNOWN = (5, 8), (6, 0)
FIELDS = [(text, TABLE, *given, refusal) for text, refusal in EXPRESSIONS for given in (UINT64, UNKNOWN)]

# What comes before the expression, in lines before and in its own, and what comes after it.
AROUND = [
    (b"", b"!if ", b"\n!endif\n"),
    (b"x\n", b" \t!if\t", b"\r\n!endif\r\n"),
    (b"!if 0\r\n", b"!elseif ", b"\r\n!endif"),
    (b"!if 0\n!elseif 0\n", b"\t!elif  ", b"\n!endif"),
]
MAX_LINE = 1024


def fits(front, text):
    """Whether an expression can follow a word in its line and is the same there."""
    return len(front) + len(text) <= MAX_LINE and b"\n" not in text and b"\r" not in text


def in_line(before, front, refusal):
    """The refusal of a selection: its number, line and offset."""
    number, offset = refusal
    return number, before.count(b"\n") + 1, len(front) + offset


SELECTIONS = [
    (before + front + text + after, TABLE, mapped(lambda each: in_line(before, front, each), refusal))
    for text, refusal in EXPRESSIONS
    for before, front, after in AROUND
    if wanted_in(OLD, refusal)[0] != BAR and fits(front, text)
]
