"""Options and words of the command line, in all their forms and orders."""
import itertools
import re
import shlex

from command import SUBCOMMANDS, answer, usage
from tally import chosen

FORMS = ["--annotate", "--marks", "--keep-lines", "--json"]
# The subcommands whose answers depend on the edition.
EDITED = [each for each in SUBCOMMANDS if each != "table"]
TWICE = "%s is given twice"
NO_NAME = "names no macro (A-Z, then A-Z, 0-9 and _) and no PCD (two words with a . between them)"


def wrong_usage(what, message, *arguments):
    """A run that has the status 2, and prints only this message of its subcommand and then the usage."""
    said = "korzhinay %s: %s\n" % (arguments[0], message)
    return what, answer(list(arguments)), (b"", said.encode() + usage(arguments[0]), 2)


def forms_that_exclude_each_other():
    """Only one form of the answer, and one of --quiet and --strict, in whatever order."""
    for one, other in itertools.permutations(FORMS, 2):
        message = "%s and %s exclude each other" % tuple(sorted((one, other), key=FORMS.index))
        yield wrong_usage("%s and %s" % (one, other), message, "select", one, other, "a.dsc")
    for one, other in (("--quiet", "--strict"), ("--strict", "--quiet")):
        yield wrong_usage("%s and %s" % (one, other), "--quiet and --strict exclude each other", "select", one, "a.dsc", other)
    for words in (["-o", "a.bin", "--json"], ["--json", "--output=a.bin"]):
        yield wrong_usage("table %s" % " ".join(words), "-o and --json exclude each other", "table", "-D", "A", *words)


def options_given_twice():
    """What is meant once is taken once."""
    for option in FORMS + ["--warn-old", "--quiet", "--strict"]:
        yield wrong_usage("%s twice" % option, TWICE % option, "select", option, "a.dsc", option)
    for words in (["-o", "a", "-o", "b"], ["-oa", "--output", "b"], ["--output=a", "--output=b"]):
        yield wrong_usage("select %s" % " ".join(words), TWICE % "-o", "select", "a.dsc", *words)
    for words in (["-ta", "--table=b"], ["--table", "a", "-t", "b"]):
        yield wrong_usage("eval %s" % " ".join(words), TWICE % "-t", "eval", "1", *words)
    for subcommand in EDITED:
        for words in (["--edition=old", "--edition", "old"], ["--edition", "new", "--edition=old"]):
            yield wrong_usage("%s %s" % (subcommand, " ".join(words)), TWICE % "--edition", subcommand, "1", *words)
    yield wrong_usage("--datum twice", TWICE % "--datum", "field", "--datum=UINT8", "--datum", "UINT8", "1")
    for subcommand in SUBCOMMANDS:
        yield wrong_usage("%s --json twice" % subcommand, TWICE % "--json", subcommand, "--json", "1", "--json")


def flags_with_a_value():
    """An option without a value takes none."""
    of_select = [("select", option) for option in FORMS + ["--warn-old", "--quiet", "--strict"]]
    of_others = [("eval", "--warn-old"), ("field", "--warn-old")] + [(each, "--json") for each in SUBCOMMANDS if each != "select"]
    for subcommand, option in of_select + of_others:
        for value in ("1", ""):
            words = [subcommand, "%s=%s" % (option, value), "1"]
            yield wrong_usage(" ".join(words[:2]), "%s takes no value" % option, *words)


def options_without_a_value():
    """An option at the end has no value."""
    for subcommand, option, message in (("eval", "--settings", "-s wants SETTINGS"), ("eval", "--table", "-t wants TABLE"),
                                        ("eval", "--undefine", "-U wants NAME"), ("eval", "--define", "-D wants NAME[=VALUE]"),
                                        ("select", "--output", "-o wants OUT"), ("field", "--datum", "--datum wants TYPE"),
                                        *((each, "--edition", "--edition wants old|new") for each in EDITED)):
        yield wrong_usage("%s without a value" % option, message, subcommand, "1", option)


def datum_types():
    """A type is known or not in both forms."""
    for words in (["--datum=UINT128"], ["--datum", "UINT128"]):
        yield wrong_usage(" ".join(words), "unknown datum type UINT128", "field", "1", *words)
    yield wrong_usage("--datum=", "unknown datum type ", "field", "--datum=", "1")


def editions():
    """An edition is one of two words, in both forms; `table` has none, and only what can note takes --warn-old."""
    for subcommand in EDITED:
        more = ["--datum", "UINT8"] if subcommand == "field" else []
        for word in ("olde", "NEW", "1", "old new", " old", ""):
            for words in (["--edition=%s" % word], ["--edition", word]):
                message = "unknown edition %s: it is old or new" % word
                yield wrong_usage("%s %s" % (subcommand, " ".join(words)), message, subcommand, "1", *more, *words)
    yield wrong_usage("table --edition", "unknown option --edition", "table", "-D", "A", "--edition", "old")
    for subcommand in ("names", "tokens", "table"):
        yield wrong_usage("%s --warn-old" % subcommand, "unknown option --warn-old", subcommand, "--warn-old", "1")


def wrong_names_after_undefine():
    """What is no name of a macro or a PCD cannot be unset."""
    for option in (["-U", "board"], ["-Uboard"], ["--undefine", "board"], ["--undefine=board"]):
        message = "korzhinay: -U board: board %s\n" % NO_NAME
        yield " ".join(option), answer(["eval"] + option + ["1"]), (b"", message.encode(), 2)
    for name in ("$(A)", "a.b.c", "1"):
        message = "korzhinay: -U %s: %s %s\n" % (name, name, NO_NAME)
        yield "-U %s" % name, answer(["eval", "-U", name, "1"]), (b"", message.encode(), 2)
    for name, reason in (("A=1", "-U takes a name without a value"), ("", "no name")):
        message = "korzhinay: -U %s: %s\n" % (name, reason)
        yield "-U %s" % name, answer(["eval", "-U", name, "1"]), (b"", message.encode(), 2)


def long_names_after_undefine():
    """A name that no setting can have may be unset all the same: a file can name it."""
    for name in ("A" * 64, "A" * 65, "A" * 1000, "a." + "B" * 64):
        yield "-U, %d bytes" % len(name), answer(["eval", "-U", name, "1"]), (b"1\n", b"", 0)
    name = b"A" * 65
    yield "a long name that is meant to be unset", answer(["select", b"-U", name, "-"], input=b"!ifdef %s\n!endif\n" % name), (b"", b"", 0)


def words_for_help():
    """`help` prints what --help prints."""
    general = answer(["--help"])
    yield "help", (answer(["help"]), general[2]), (general, 0)
    for subcommand in SUBCOMMANDS:
        shown = answer([subcommand, "--help"])
        got = (answer(["help", subcommand]), shown[0].startswith(b"usage: korzhinay %s " % subcommand.encode()), shown[1:])
        yield "help %s" % subcommand, got, (shown, True, (b"", 0))
    for words in (["help", "--help"], ["help", "-h"]):
        yield " ".join(words), answer(words), general
    for words, message in ((["nothing"], b"unknown subcommand nothing"), (["select", "eval"], b"a second subcommand: eval")):
        yield "help %s" % " ".join(words), answer(["help"] + words), (b"", b"korzhinay: %s\n%s" % (message, usage("help")), 2)
    for subcommand in SUBCOMMANDS:
        yield "the help names %s" % subcommand, re.search(rb"^ +%s  " % subcommand.encode(), general[0], re.M) is not None, True


def expression_in_several_words():
    """The message shows the expression as a shell would take it."""
    for words in (["1", "+", "2"], ["1", "+", "a b"], ["'a'", "==", "'b'"], ["$(A)", "<<", "1"], ["1", "2"], ["5", "-", "7"]):
        errors = answer(["eval"] + words)[1].decode()
        message, _, quoted = errors.split("\n")[0].partition(" a shell passes an expression as one word if it is in quotes: ")
        try:
            shown = shlex.split(quoted)
        except ValueError:
            shown = quoted
        yield "eval %s" % " ".join(words), (message, shown), (
            "korzhinay eval: a second EXPRESSION: %s;" % words[1], [" ".join(words)])


def expression_with_a_minus():
    """A word after a minus is an option if it begins with one."""
    yield wrong_usage("eval 5 - -7", "unknown option -7", "eval", "5", "-", "-7")


def checks():
    for part in (forms_that_exclude_each_other, options_given_twice, flags_with_a_value, options_without_a_value, datum_types, editions,
                 wrong_names_after_undefine, long_names_after_undefine, words_for_help, expression_in_several_words,
                 expression_with_a_minus):
        if chosen(part.__name__, "options"):
            yield from part()
