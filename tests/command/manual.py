"""The man page says what the command does: the options of the helps, the meanings of the refusals, and examples that work."""
import os
import re
import subprocess
import tempfile

from command import FOUND, ROOT, SECONDS, SUBCOMMANDS, answer, usage
from meanings import meanings
from tally import chosen

OPTION = re.compile(r"(?<![\w-])(--[a-z]+(?:-[a-z]+)*|-[a-zA-Z])(?![\w-])")


def page():
    """The man page's text without its macros' names and escapes."""
    source = open(os.path.join(ROOT, "target", "korzhinay.1"), encoding="utf-8").read()
    plain = source.replace("\\-", "-").replace("\\(aq", "'").replace("\\(dq", '"').replace("\\(ga", "`").replace("\\(ha", "^")
    return re.sub(r"\\f[BIRP]", "", plain)


def section(text, title):
    """A section or subsection by its title, up to the next of its kind."""
    start = re.search(r"^\.S[HS] %s$" % re.escape(title), text, re.MULTILINE)
    return re.split(r"^\.S[HS] ", text[start.end():], maxsplit=1, flags=re.MULTILINE)[0] if start else ""


def options_of_helps():
    """The page has the options of the helps and no others, and the usage of every subcommand in its synopsis."""
    text = page()
    helps = {name: set(OPTION.findall(answer([name, "--help"])[0].decode())) for name in SUBCOMMANDS}
    everywhere = set().union(*helps.values(), OPTION.findall(answer(["--help"])[0].decode()))
    yield "options of the man page", set(OPTION.findall(section(text, "OPTIONS"))), everywhere
    yield "options in the whole man page", set(OPTION.findall(text)), everywhere
    for name in SUBCOMMANDS:
        wanted = " ".join(usage(name).decode().removeprefix("usage: ").split())
        yield "synopsis of %s" % name, wanted in " ".join(section(text, "SYNOPSIS").split()), True
        yield "section of %s" % name, section(text, name) != "", True


def refusals():
    """The page's list of refusals is that of the command."""
    wanted = [(str(number), meaning) for number, meaning in meanings().items()]
    listed = re.findall(r"^\.TP\n\.B (\d+)\n(.*)$", section(page(), "REFUSALS"), re.MULTILINE)
    yield "refusals of the command", len(wanted), 28
    yield "refusals of the man page", listed, wanted


def message():
    """The page's message is what the command prints."""
    shown = section(page(), "REFUSALS").split("\n.EX\n")[1].split(".EE\n")[0]
    with tempfile.TemporaryDirectory() as folder:
        with open(os.path.join(folder, "board.dsc"), "wb") as file:
            file.write(b'a\nb\n!if $(TARGET) == "DEBUG"\n!endif\n')
        yield "the message of the man page", answer(["select", "board.dsc"], folder=folder), (b"", shown.encode(), 1)


def examples():
    """The page's examples work, one after the other."""
    lines = [line for line in section(page(), "EXAMPLES").splitlines() if line.startswith("korzhinay ")]
    yield "there are examples", len(lines) > 5, True
    with tempfile.TemporaryDirectory() as folder:
        os.symlink(os.path.join(ROOT, "examples"), os.path.join(folder, "examples"))
        for line in lines:
            done = subprocess.run(line, shell=True, cwd=folder, env=FOUND, capture_output=True, timeout=SECONDS)
            yield "example %s" % line, (done.stderr, done.returncode), (b"", 0)


def version():
    """The page is of this version."""
    title = page().splitlines()[0]
    yield "the version in the title", answer(["--version"])[0].decode().strip() in title, True


def checks():
    for part in (options_of_helps, refusals, message, examples, version):
        if chosen("manual_" + part.__name__, "manual"):
            yield from part()
