"""Console sessions in documents.

A session is a code block, fenced or indented by four spaces, whose first line starts with `$ `. Each such line is a command for bash at the
repository's root with target/ first in PATH; lines that start with `> ` right below it continue it. The other lines are what it prints,
standard error included, and a last line such as `[1]` is its exit status, left out if that is 0. Other blocks are no sessions.
"""
import collections
import os
import subprocess

ROOT = os.path.dirname(os.path.dirname(os.path.dirname(os.path.abspath(__file__))))
PROMPT, CONTINUED = "$ ", "> "

# The place of an example, its command, and what it has to print, all as text.
Example = collections.namedtuple("Example", "place section command wanted")


def read(path):
    with open(os.path.join(ROOT, path), encoding="utf-8") as file:
        return file.read()


def blocks(text):
    """The code blocks of a document: the heading above, the number of the first line, and the lines."""
    section, lines, fenced = "", [], False
    for number, line in enumerate(text.split("\n"), 1):
        fence = line.startswith("```")
        if not fence and (fenced or line.startswith("    ")):
            lines.append(line if fenced else line[4:])
            continue
        if lines:
            yield section, number - len(lines), lines
            lines = []
        fenced ^= fence
        if line.startswith("## "):
            section = line[3:]
    if fenced or lines:
        raise SystemExit("a code block is not closed")


def session(document, section, first, lines):
    """The examples of one block."""
    commands = [i for i, line in enumerate(lines) if line.startswith(PROMPT)]
    if commands and commands[0] != 0:
        raise SystemExit("%s:%d: a session starts with a command, or its first lines are not looked at" % (document, first))
    for start, end in zip(commands, commands[1:] + [len(lines)]):
        output = start + 1
        while output < end and lines[output].startswith(CONTINUED):
            output += 1
        command = "\n".join(line[len(PROMPT):] for line in lines[start:output])
        wanted = "".join(line + "\n" for line in lines[output:end])
        yield Example("%s:%d" % (document, first + start), section, command, wanted)


def examples(document):
    return [example for block in blocks(read(document)) for example in session(document, *block)]


def run(command):
    """What a command prints, with its exit status if that is not 0."""
    path = os.path.join(ROOT, "target") + os.pathsep + os.environ["PATH"]
    done = subprocess.run(
        ["bash", "-c", command],
        cwd=ROOT,
        env=dict(os.environ, PATH=path, LC_ALL="C"),
        stdin=subprocess.DEVNULL,
        stdout=subprocess.PIPE,
        stderr=subprocess.STDOUT,
        timeout=60,
    )
    # Bytes that are no UTF-8 have to differ from those that are, and not end the test.
    printed = done.stdout.decode("utf-8", "backslashreplace")
    return printed + ("[%d]\n" % done.returncode if done.returncode else "")
