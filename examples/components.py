"""Prints the INF paths that the [Components] sections of a DSC file have under some settings.

    python3 examples/components.py -D BOARD=SPAR -D WEEK=3 examples/window-right.dsc

-D is that of `build`: NAME=VALUE, or NAME alone for 1. VALUE is an expression, as 3, TRUE, "a string" or L"a wide one", or a word without
quotes, which is a string. A DEFINE line of the file wins over it, other than in `build`. `!include` is not followed, `!error` stops
nothing, a macro that is not set is 0 without a word (`korzhinay select` gives notes), and macros in paths stay as they are. Exit status: 0
with the paths, 1 if the file is refused, 2 for wrong usage, a wrong setting or a file that cannot be read."""
import argparse
import os
import sys

sys.path.insert(0, os.path.join(os.path.dirname(os.path.abspath(__file__)), "..", "python"))
from korzhinay import Refused, Table, evaluate, select


def setting(word):
    """The name and the content of a setting."""
    name, equals, value = (part.strip() for part in word.partition("="))
    try:
        return name, evaluate(value).content if equals else 1
    except Refused as refused:
        if refused.number == 3 and value.isidentifier():
            return name, value
        raise argparse.ArgumentTypeError("%s: %s" % (word, refused))


def components(lines):
    """The INF paths of these lines. What is in braces after a path, as the libraries of that component, is passed over."""
    inside, depth = False, 0
    for line in lines:
        text = line.split(b"#")[0].strip()
        path = text.rstrip(b"{ \t")
        if text.startswith(b"["):
            names = text.strip(b"[]").lower().split(b",")
            inside, depth = any(name.split(b".")[0].strip() == b"components" for name in names), 0
        elif inside and depth == 0 and path.lower().endswith(b".inf"):
            yield path
        depth += text.count(b"{") - text.count(b"}")


def place(line, refused):
    """Line and column as compilers count them. A refusal without an offset is at the first byte of its line that is no blank."""
    indent = next((at for at, byte in enumerate(line) if byte not in b" \t"), 0)
    return (refused.line, (refused.offset or indent) + 1) if refused.line else (1, 1)


parser = argparse.ArgumentParser(description="the components of a platform")
parser.add_argument("-D", "--define", metavar="NAME=VALUE", action="append", default=[], type=setting)
parser.add_argument("file", metavar="DSC")
given = parser.parse_args()
try:
    table = Table(dict(given.define))
    with open(given.file, "rb") as opened:
        file = opened.read()
except (OSError, ValueError) as error:
    parser.error(str(error))
try:
    sys.stdout.buffer.writelines(path + b"\n" for path in components(select(file, table).kept().split(b"\n")))
except Refused as refused:
    at = place(file.split(b"\n")[refused.line - 1], refused)
    sys.exit("%s:%d:%d: refused (%d): %s" % (given.file, *at, refused.number, refused.meaning))
