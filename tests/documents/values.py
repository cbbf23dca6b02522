"""The table of values: each form, with numbers for its letters, has the value or the refusal that its row tells."""
import itertools
import operator
import re

import library
from manual import codes, meaning, rows

END = 2**64
NUMBERS = [0, 1, 2, 3, 63, 64, 2**63 - 1, 2**63, END - 1]
# The comparison that is named, and the others.
COMPARISONS = {
    "`a < b` and the other comparisons": ["a < b", "a <= b", "a > b", "a >= b", "a == b", "a != b"],
}


def bounded(number):
    return number if 0 <= number < END else "refused (11)"


def product(a, b):
    return bounded(a * b)


def shifted_left(a, b):
    # Past 64 all results are the same, and Python would run out of memory.
    return bounded(a * 2 ** min(b, 64))


def shifted_right(a, b):
    return a // 2 ** min(b, 64)


def unless_zero(divide):
    return lambda a, b: divide(a, b) if b else "refused (12)"


# What the last two cells of a row tell of its forms, in their order.
MEANT = {
    ("n; 0", "11: `-n` unless n is 0"): [lambda n: n, lambda n: bounded(-n)],
    ("2^64 - 1 - n", ""): [lambda n: END - 1 - n],
    ("1 if n is 0, else 0", ""): [lambda n: int(n == 0)],
    ("product, sum, difference", "11 outside the range"): [product, lambda a, b: bounded(a + b), lambda a, b: bounded(a - b)],
    ("quotient, rounded down, and remainder", "12 if b is 0"): [unless_zero(operator.floordiv), unless_zero(operator.mod)],
    ("a times 2^b; 0 if a is 0, whatever b is", "11 if a one is pushed out of the 64 bits"): [shifted_left],
    ("a divided by 2^b, rounded down", ""): [shifted_right],
    ("bit by bit, over 64 bits", ""): [operator.and_, operator.xor, operator.or_],
    ("1 if it holds, else 0", ""): [operator.lt, operator.le, operator.gt, operator.ge, operator.eq, operator.ne],
    ("1 if both, at least one, exactly one of them is not 0, else 0", ""): [
        lambda a, b: a != 0 and b != 0,
        lambda a, b: a != 0 or b != 0,
        lambda a, b: (a != 0) != (b != 0),
    ],
    ("b if a is not 0, else c", ""): [lambda a, b, c: b if a else c],
}


def answer(expression):
    refusal, _, (_, number, *_) = library.evaluate(expression.encode(), b"")
    return "refused (%d)" % refusal if refusal else number


def wrong(form, meant):
    """The expressions of a form that have another answer than is meant, with both."""
    letters = sorted(set(re.findall(r"\b[a-z]\b", form)))
    for numbers in itertools.product(NUMBERS, repeat=len(letters)):
        values = dict(zip(letters, map(str, numbers)))
        expression = re.sub(r"\b[a-z]\b", lambda letter: values[letter.group()], form)
        if answer(expression) != meant(*numbers):
            yield expression, answer(expression), meant(*numbers)


def checks():
    found = rows("Values", "form", "value", "refused")
    yield "rows of values", len(found), len(MEANT)
    for cell, *told in found:
        forms, meant = COMPARISONS.get(cell, codes(cell)), meaning(MEANT, tuple(told))
        yield "number of forms in %s" % cell, len(forms), len(meant)
        for form, function in zip(forms, meant):
            yield "values of %s" % form, list(wrong(form, function)), []
