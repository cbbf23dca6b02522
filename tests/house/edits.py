"""The first line of each must-fail edit names the wrong program that it is: `rules out: ..`."""
import re

from sources import files, read


def checks():
    found = files("crates", ".edit")
    yield "there are edits", bool(found), True
    unnamed = [path for path in found if not re.match(r"rules out: \S", read(path))]
    yield "edits whose first line is not 'rules out: ..'", unnamed, []
