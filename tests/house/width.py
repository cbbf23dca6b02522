"""No line under crates/ is longer than 160 columns, except contracts (`requires` and `ensures` in code), `unfolding` lists in proofs and
definitions, and the texts of must-fail edits (`old:` and `new:`), which `rt` reads as one line each."""
import re

from sources import files, read

MAX_COLUMNS = 160
EXCEPTIONS = {".rt": r" *(requires|ensures) ", ".antt": r" *unfolding ", ".edit": r"(old|new): "}


def long_lines(path, exception):
    """The numbers of a file's long lines, with their columns."""
    for number, line in enumerate(read(path).split("\n"), 1):
        if len(line) > MAX_COLUMNS and not re.match(exception, line):
            yield "%s:%d: %d columns" % (path, number, len(line))


def checks():
    for ending, exception in EXCEPTIONS.items():
        found = files("crates", ending)
        yield "there are files *%s" % ending, bool(found), True
        yield "lines of more than %d columns in *%s" % (MAX_COLUMNS, ending), [line for path in found for line in long_lines(path, exception)], []
