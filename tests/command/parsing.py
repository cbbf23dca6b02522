"""The objects of --json, read strictly. What is wrong with one is raised as an error."""
import json
import re

from command import answer
from unseen import is_unseen

MEMBERS = {
    "eval": ["format", "command", "value", "operators", "notes", "refusal"],
    "field": ["format", "command", "datum", "length", "bytes", "notes", "refusal"],
    "tokens": ["format", "command", "tokens", "refusal"],
    "table": ["format", "command", "settings", "refusal"],
}
REFUSAL = ["number", "meaning", "line", "column", "offset", "hint"]


def unique(members):
    """An object; no name is in it twice."""
    if len(dict(members)) != len(members):
        raise ValueError("a member twice: %s" % members)
    return dict(members)


def no_number(word):
    raise ValueError("no whole number: %s" % word)


def parsed(output):
    """The object of an output: one line, with no unseen character in it."""
    line = output.decode("utf-8")
    if not line.endswith("\n") or any(map(is_unseen, line[:-1])):
        raise ValueError("not one line of seen characters: %r" % line)
    return json.loads(line, object_pairs_hook=unique, parse_constant=no_number, parse_float=no_number)


def names(found):
    """The members of an object in their order. Those that have the bytes of the text before them are checked and left out."""
    rest = []
    for name in found:
        text = name.removesuffix("_hex")
        if text == name:
            rest.append(name)
        elif rest[-1:] != [text] or not is_of_text(found[name], found[text]):
            raise ValueError("wrong bytes of a text: %s" % found)
    return rest


def is_of_text(digits, text):
    """Whether these are the digits of bytes that are not UTF-8, and the text is what is left of them."""
    data = bytes.fromhex(digits)
    return data.hex() == digits and data.decode("utf-8", "replace") == text and text.encode() != data


def data(found, name):
    """The bytes of a text."""
    return bytes.fromhex(found[name + "_hex"]) if name + "_hex" in found else found[name].encode()


def literal(value):
    """A value as the command prints it."""
    text = data(value, "text")
    wanted = ["kind", "number", "text"] if value["kind"] == "number" else ["kind", "text"]
    if names(value) != wanted or value["kind"] == "number" and text != b"%d" % value["number"]:
        raise ValueError("no value: %s" % value)
    quote = b"'" if b'"' in text and b"'" not in text else b'"'
    return {"number": text, "string": quote + text + quote, "wide string": b"L" + quote + text + quote}[value["kind"]]


def refusal(message):
    """What a message says of a refusal; it does not say the offset."""
    head, *rest = message.decode().splitlines()
    line, column, number, meaning = re.fullmatch(r".*:(\d+):(\d+): refused \((\d+)\): (.*)", head).groups()
    # The text and the caret come before the hint, or nothing does.
    hint = rest[-1].removeprefix("    ") if len(rest) % 2 else None
    return {"number": int(number), "meaning": meaning, "line": int(line), "column": int(column), "hint": hint}


def offset(found):
    return found["refusal"]["offset"] if found["refusal"] else 0


def pair(arguments, **more):
    """What a command prints without --json, and the object that it prints with it. Messages and statuses have to be the same."""
    text, message, status = answer(arguments, **more)
    output, *rest = answer([arguments[0], "--json"] + arguments[1:], **more)
    found = parsed(output)
    if rest != [message, status]:
        raise ValueError("another message or status: %s" % rest)
    if (names(found), found["format"], found["command"]) != (MEMBERS[arguments[0]], 1, arguments[0]):
        raise ValueError("another object: %s" % found)
    refused = found["refusal"]
    if (refused is None) != (status == 0):
        raise ValueError("status %d with this refusal: %s" % (status, refused))
    if refused is not None and (names(refused) != REFUSAL or {**refusal(message), "offset": refused["offset"]} != refused):
        raise ValueError("another refusal: %s" % refused)
    return text, found
