"""What the command says of each refusal, read from its source: three of them it can never print."""
import os
import re

SOURCES = os.path.join(os.path.dirname(os.path.abspath(__file__)), "..", "cli", "src")
FUNCTION = "pub fn refusal("


def source():
    """The text of the source file that has the meanings."""
    paths = [os.path.join(place, name) for place, _, names in os.walk(SOURCES) for name in names if name.endswith(".rs")]
    texts = [open(path, encoding="utf-8").read() for path in paths]
    (found,) = [text for text in texts if FUNCTION in text]
    return found


def meanings():
    """The meaning of each number, in the order of the source."""
    body = source().split(FUNCTION)[1].split("\n}")[0]
    return {int(number): meaning for number, meaning in re.findall(r'^ +(\d+) => "(.*)",$', body, re.M)}
