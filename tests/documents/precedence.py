"""The table of precedence: each example has the value of the grouping that is meant, and the other grouping has another one; and any two
operators group as their levels tell."""
import itertools

import library
from manual import codes, rows
from product import ask

HEADING = ("level", "operators", "example", "means", "value", "and not", "value")
UNARY, CHOICE = 1, 13
NUMBERS = "0123"


def levels():
    """Each level with the spellings of its operators; `? :` is one."""
    found = rows("Precedence", *HEADING)[:CHOICE]
    return [(int(level), [text] if int(level) == CHOICE else text.split()) for level, (text,) in ((row[0], codes(row[1])) for row in found)]


def value(cell):
    answer = ask("eval", "--", *codes(cell))
    return answer.decode().rstrip("\n") if isinstance(answer, bytes) else answer


def answer(form, operands):
    """The refusal's number and the answer of a form with these operands. Parentheses move the place of a refusal, so it is left out."""
    refusal, _, numbers = library.evaluate(form.format(*operands).encode(), b"")
    return refusal, numbers


def same(one, other, operands):
    """Whether two forms have the same answers and counts, whatever numbers stand in them."""
    return all(answer(one, each) == answer(other, each) for each in itertools.product(NUMBERS, repeat=operands))


def misgrouped():
    """Operators that do not group as their levels tell, each two of them with numbers; in parentheses, which bars need."""
    binary = [(level, name) for level, names in levels() if UNARY < level < CHOICE for name in names]
    for (level, left), (other, right) in itertools.product(binary, repeat=2):
        meant = "(({{}} {0} {{}}) {1} {{}})" if level <= other else "({{}} {0} ({{}} {1} {{}}))"
        if not same("({{}} {0} {{}} {1} {{}})".format(left, right), meant.format(left, right), 3):
            yield left, right
    for left, (_, right) in itertools.product(levels()[0][1], binary):
        if not same("({0} {{}} {1} {{}})".format(left, right), "(({0} {{}}) {1} {{}})".format(left, right), 2):
            yield left, right


def checks():
    found = rows("Precedence", *HEADING)
    yield "levels", [level for level, _ in levels()], list(range(1, CHOICE + 1))
    spelled = {name for row in rows("Tokens", "token", "how it is written", "not so")[-2:] for name in codes(row[1])[0].split()}
    yield "operators among the tokens", spelled - set("()"), {part for _, names in levels() for name in names for part in name.split()}
    for level, _, example, meant, wanted, other, wrong in found:
        what = "level %s, %s" % (level, example)
        yield what, [value(each) for each in (example, meant, other)], [wanted, wanted, wrong]
        yield what + " shows its grouping", wanted != wrong, True
    yield "operators that group otherwise", list(misgrouped()), []
