"""Counts what passed and what failed; every runner in Python ends with the line that the gate counts.

Words after a runner's name choose what it runs: a check by its name, or all checks of a group. `--list` prints the names and runs
nothing. A word that is the name of nothing is an error."""
import sys

passed = failed = 0
words, unmet, listing = [], set(), False


def choose(arguments):
    """Takes the words that a runner was given."""
    global words, unmet, listing
    listing = arguments == ["--list"]
    words = [] if listing else arguments
    unmet = set(words)


def chosen(name, *groups):
    """Whether a check is run that has this name and belongs to these groups."""
    if listing:
        print(name)
        return False
    unmet.difference_update((name, *groups))
    return not words or any(each in words for each in (name, *groups))


def check(what, got, wanted):
    global passed, failed
    if got == wanted:
        passed += 1
    else:
        failed += 1
        print("FAILED %s\n  got    %r\n  wanted %r" % (what[:200], got, wanted))


def end():
    if unmet:
        sys.exit("\n".join("nothing has the name %r; --list shows the names" % word for word in sorted(unmet)))
    if not listing:
        print("%d passed, %d failed" % (passed, failed))
    sys.exit(1 if failed else 0)
