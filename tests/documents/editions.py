"""The table of editions: what its points show is taken by the old edition as its cell tells, and refused by the new one with its number."""
from manual import codes, meaning, rows
from product import ask, marks

SETTINGS = ["-D", "TARGET=DEBUG", "-D", "NAME"]
# The other spelling of each point, which both editions take, with the same answer.
SAME = {
    "a bare word is a string of its own bytes": lambda code: [code.replace("DEBUG", quote + "DEBUG" + quote) for quote in "'\""],
    "the same as `!ifdef NAME`, `!ifndef NAME`": lambda code: [code.replace("$(NAME)", "NAME")],
}
REFUSED = {"refused (3), at the word": 3, "refused (22)": 22}


def answer(code, edition):
    """The marks of a directive, or the value of an expression; or the refusal."""
    options = ["--edition", edition, *SETTINGS]
    return marks(code + "\n!endif", *options) if code.startswith("!") else ask("eval", *options, code)


def checks():
    found = rows("Editions", "point", "old edition", "new edition")
    yield "rows of editions", len(found), len(SAME)
    for cell, old, new in found:
        for code in codes(cell):
            yield "%s, new" % code, answer(code, "new"), meaning(REFUSED, new)
            for other in meaning(SAME, old)(code):
                answers = [answer(other, edition) for edition in ("new", "old")]
                yield "%s, the same as %s" % (code, other), [answer(code, "old")] * 2, answers
                yield "%s is refused, or fails" % other, isinstance(answers[0], int) or "exit status" in str(answers[0]), False
