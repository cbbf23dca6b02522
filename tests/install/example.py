"""The example in C, compiled as its first lines say: it keeps the lines that the command keeps, and refuses what the command refuses."""
import os

from compiling import compiled, ran
from installation import ROOT, installed, made, run

SOURCE = os.path.join(ROOT, "examples", "select.c")
LINE = b"x" * 63 + b"\n"
FILES = {
    "kept.dsc": b"a\n!if $(WEEK) == 0\r\nb\r\n!else\nc\n!endif\nd",
    "empty.dsc": b"",
    "old.dsc": b"!ifdef $(WEEK)\n!else\na\n!endif\n!if 'a' == a\nb\n!endif\n",
    "define.dsc": b"DEFINE WEEK = 3\n!if $(WEEK) == 3\na\n!else\nDEFINE WEEK\n!endif\n  DEFINE LAST = 1",
    "define-wrong.dsc": b"a\nDEFINE WEEK\n",
    "divisor.dsc": b"a\n  !if 1 / 0\n!endif\n",
    "word.dsc": b"a\n!iff 1\n",
    "longest.dsc": LINE * 1024,
    "too-long.dsc": LINE * 1024 + b"x",
}


def checks():
    prefix, folder = installed(), made("example")
    program, command = os.path.join(folder, "select"), os.path.join(prefix, "bin", "korzhinay")
    yield "compiled", compiled(SOURCE, program, prefix=prefix), ("", "", 0)
    for name, content in FILES.items():
        path = os.path.join(folder, name)
        with open(path, "wb") as file:
            file.write(content)
        kept, said, status = run(command, "select", "--quiet", path)
        # The command says more after the first line of a refusal, and gives notes.
        yield name, ran(program, path, prefix=prefix), (kept, said[:said.find("\n") + 1], status)
    yield "no file", ran(program, prefix=prefix), ("", "usage: select FILE\n", 2)
    for path, reason in (os.path.join(folder, "none.dsc"), "No such file or directory"), (folder, "Is a directory"):
        yield reason, ran(program, path, prefix=prefix), ("", "%s: %s\n" % (path, reason), 2)
