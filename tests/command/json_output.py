"""--json says what the command says without it: every object is turned back into the text that the same command prints, and compared with
what the library answers where the text does not have it."""
import json
import os
import shlex
import shutil
import subprocess
import tempfile

import library
from command import DATUM_TYPES, answer
from expressions import EXPRESSIONS, NAMED, NUMBERED, TABLE
from manual import page, section
from parsing import MEMBERS, data, literal, names, offset, pair
from tally import chosen
from unseen import escaped

TOKEN = ["start", "length", "code", "kind", "text", "number"]
SETTING = ["name", "sort", "value"]
BUOY = ["-s", "examples/buoy.settings"]
FAILING = [["eval"], ["eval", "-D", "A=007", "1"], ["eval", "-t", "nothing.bin", "1"], ["field", "1"], ["field", "--datum", "INT", "1"]]
FAILING += [["tokens"], ["tokens", "1", "2"], ["table"], ["table", "nothing.bin"], ["table", "-s", "nothing.settings"]]


def table_file(folder):
    path = os.path.join(folder, "table.bin")
    open(path, "wb").write(TABLE)
    return path


def values():
    """The values of expressions, and how many operators were applied."""
    with tempfile.TemporaryDirectory() as folder:
        table = table_file(folder)
        for expression in EXPRESSIONS:
            text, found = pair(["eval", "-t", table, "--", expression])
            shown = literal(found["value"]) + b"\n" if found["value"] else b""
            _, place, (_, _, operators, *_) = library.evaluate(expression, TABLE)
            yield "value of %r" % expression, (shown, found["operators"], offset(found)), (text, operators, place)


def fields():
    """The fields of expressions."""
    with tempfile.TemporaryDirectory() as folder:
        table = table_file(folder)
        for datum in DATUM_TYPES:
            for expression in NUMBERED + NAMED + [b'L"\xe9"', b"1 / 0"]:
                text, found = pair(["field", "--datum", datum, "-t", table, "--", expression])
                field = bytes.fromhex(found["bytes"] or "")
                shown = b"" if found["bytes"] is None else field.hex(" ").encode() + b"\n"
                yield "%s of %r" % (datum, expression), (found["datum"], found["length"], shown), (datum, len(field), text)


def tokens():
    """The tokens of expressions."""
    for expression in EXPRESSIONS:
        text, found = pair(["tokens", "--", expression])
        _, place, read = library.tokens(expression)
        got, rows = [], ""
        for one in found["tokens"]:
            number = "" if one["number"] is None else "  = %d" % one["number"]
            rows += "%4d %4d  %-11s  %s%s\n" % (one["start"], one["length"], one["kind"], escaped(data(one, "text")), number)
            got.append((names(one), one["code"], one["start"], one["length"], one["number"] or 0))
        wanted = [(TOKEN, *token) for token in read]
        yield "tokens of %r" % expression, (rows, got, offset(found)), (text.decode(), wanted, place)


def listed(setting):
    """A setting as the command lists it; a comment has the bytes of a string that no quotes can hold."""
    name, value, text = setting["name"].encode(), setting["value"], data(setting["value"], "text")
    if b"\r" in text or b"\n" in text or b"'" in text and b'"' in text:
        return b"# %s: a %s that no quotes can hold, in bytes: %s\n" % (name, value["kind"].encode(), text.hex(" ").encode())
    return b"%s=%s\n" % (name, literal(value))


def tables():
    """The settings of tables."""
    for arguments in (["-"], ["-D", "A"], BUOY, BUOY + ["-D", "WEEK=18446744073709551615"], ["/dev/null"]):
        text, found = pair(["table"] + arguments, input=TABLE)
        yield "settings of %s" % arguments, b"".join(map(listed, found["settings"])), text
        for one in found["settings"]:
            yield "members of %s" % one["name"], (names(one), one["sort"]), (SETTING, "PCD" if "." in one["name"] else "macro")


def malformed_tables():
    """A table that is refused is refused by every subcommand that reads one."""
    for arguments, answered, nothing in ((["eval", "-t", "-", "1"], "value", None), (["table", "-"], "settings", []),
                                         (["field", "--datum", "UINT8", "-t", "-", "1"], "bytes", None)):
        text, found = pair(arguments, input=b"short")
        yield "%s with a malformed table" % arguments[0], (text, found[answered], found["refusal"]["number"]), (b"", nothing, 1)


def failures():
    """Where nothing is answered or refused, nothing is on standard output."""
    for arguments in FAILING:
        message = answer(arguments)[1]
        yield "failure of %s" % arguments, answer(arguments + ["--json"]), (b"", message, 2)


def man_page():
    """The objects that the man page shows are those that the commands above them print."""
    text = section(page(), "JSON").split("\n.EX\n")[1].split(".EE\n")[0]
    # A line that begins with a blank goes on with the one before it.
    shown = [line for line in text.replace("\n ", " ").splitlines() if line]
    commands = [shlex.split(line)[1:] for line in shown[::2]]
    yield "subcommands in the section JSON", {words[0] for words in commands}, {*MEMBERS, "names", "select"}
    for words, line in zip(commands, shown[1::2]):
        yield "object of %s" % words, answer(words)[0].decode(), line + "\n"


def jq():
    """Another parser finds the same texts."""
    if not shutil.which("jq"):
        print("LEFT OUT jq: it is not installed")
        return
    outputs = b"".join(answer(["eval", "--json", "--", expression])[0] for expression in EXPRESSIONS)
    texts = []
    for line in outputs.splitlines(keepends=True):
        json.loads(line, object_hook=lambda found: texts.extend(value for value in found.values() if isinstance(value, str)))
    done = subprocess.run(["jq", "-c", "-s", "[.. | strings] | sort"], input=outputs, capture_output=True)
    yield "the texts that jq finds", (done.stderr, json.loads(done.stdout or b"null")), (b"", sorted(texts))


def checks():
    for part in (values, fields, tokens, tables, malformed_tables, failures, man_page, jq):
        if chosen("json_" + part.__name__, "json"):
            try:
                yield from part()
            except (AttributeError, LookupError, TypeError, ValueError) as wrong:
                yield "json_" + part.__name__, repr(wrong), "no object is wrong"
