"""The table of kinds: each operator, in every spelling, takes operands of the kinds that its row tells and no others (10), and its
results are what the row tells."""
import itertools

import library
from manual import meaning, rows
from precedence import CHOICE, UNARY, levels

NUMBER, STRING, WIDE = 0, 1, 2
# An operand of each kind by its place. With these numbers every operator whose result is any number has one above 1.
OPERANDS = [{NUMBER: number, STRING: '"a"', WIDE: 'L"a"'} for number in ("23", "3", "4")]
# The operators that the cells of the first column name, every spelling; None is for those that no other row has.
OPERATORS = {
    "`< <= > >= == !=` and their words": "< <= > >= == != LT LE GT GE EQ NE".split(),
    "`! && ||` and their words, `XOR`": "! NOT not && AND and || OR or XOR xor".split(),
    "`? :`": ["? :"],
    "all others": None,
}
TAKEN = {
    "two numbers, two strings or two wide strings": lambda kinds: len(kinds) == 2 and kinds[0] == kinds[1],
    "numbers": lambda kinds: set(kinds) == {NUMBER},
    "a number, then two of one kind": lambda kinds: len(kinds) == 3 and kinds[0] == NUMBER and kinds[1] == kinds[2],
}
# Of the results, each with its kind, its number and the kinds of the operands.
RESULTS = {
    "0 or 1": lambda results: all(kind == NUMBER and number in (0, 1) for kind, number, _ in results),
    "a number": lambda results: all(kind == NUMBER for kind, *_ in results) and any(number > 1 for _, number, _ in results),
    "of that kind": lambda results: {kind for kind, *_ in results} == {NUMBER, STRING, WIDE}
    and all(kind == kinds[1] for kind, _, kinds in results),
}


def forms():
    """Each operator of the table of precedence with its forms, operands left open; in parentheses, which bars need."""
    found = {}
    for level, names in levels():
        for name in names:
            form = {UNARY: "(%s {})" % name, CHOICE: "({} ? {} : {})"}.get(level, "({} %s {})" % name)
            found.setdefault(name, []).append(form)
    return found


def asked(form):
    """The answer to a form with operands of every kind: the operands' kinds, the refusal, and the kind and number of the value."""
    for kinds in itertools.product([NUMBER, STRING, WIDE], repeat=form.count("{}")):
        operands = [operand[kind] for operand, kind in zip(OPERANDS, kinds)]
        refusal, _, (kind, number, *_) = library.evaluate(form.format(*operands).encode(), b"")
        yield kinds, refusal, kind, number


def checks():
    found, every = rows("Kinds", "operators", "operands", "result"), forms()
    yield "rows of kinds", len(found), len(OPERATORS)
    named = {name for names in OPERATORS.values() for name in names or []}
    yield "operators of kinds that have no precedence", sorted(named - every.keys()), []
    for cell, operands, result in found:
        for name in meaning(OPERATORS, cell) or sorted(every.keys() - named):
            answers = [each for form in every.get(name, []) for each in asked(form)]
            taken = [kinds for kinds, refusal, *_ in answers if refusal != 10]
            yield "kinds that %s takes" % name, taken, [kinds for kinds, *_ in answers if meaning(TAKEN, operands)(kinds)]
            results = [(kind, number, kinds) for kinds, refusal, kind, number in answers if not refusal]
            yield "results of %s are %s" % (name, result), meaning(RESULTS, result)(results), True
