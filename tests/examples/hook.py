"""The hook for git, in repositories of its own: which commits it stops, with which messages, and that it looks at what is staged."""
import contextlib
import os
import shutil
import tempfile

from shell import EXAMPLES, messages, run, write

GOOD = "!if 1\nx\n!endif\n"
BAD = "!if 1 / 0\nx\n!endif\n"
REFUSED = "%s:1:7: refused (12)"
# Without settings it is refused, since a macro that is not set is a number.
BOARD = '!if $(BOARD) == "SPAR"\nx\n!endif\n'
UNSET = "!if $(CELS) > 4\nx\n!endif\n"
OLD = "!if 'SPAR' == SPAR\nx\n!endif\n"


class Repository:
    """A fresh repository with the hook in it."""

    def __init__(self, room):
        self.folder, self.home = os.path.join(room, "work"), os.path.join(room, "home")
        os.mkdir(self.folder)
        os.mkdir(self.home)
        self.git("init", "--quiet")
        self.git("config", "user.name", "Buoy")
        self.git("config", "user.email", "buoy@example.org")
        shutil.copy(os.path.join(EXAMPLES, "pre-commit"), os.path.join(self.folder, ".git", "hooks"))

    def git(self, *words):
        return run(["git", *words], self.folder, self.home)

    def stage(self, files):
        """Writes and stages files, which are given by their names with their content."""
        for name, content in files.items():
            write(self.folder, name, content)
            self.git("add", "--", name)

    def hook(self):
        """What the hook says: refusals and notes, and its status."""
        _, said, status = run([os.path.join(".git", "hooks", "pre-commit")], self.folder, self.home)
        return messages(said), status

    def commit(self, *words):
        """Whether a commit is made, by git itself."""
        before = self.git("rev-parse", "--verify", "--quiet", "HEAD")[0]
        self.git("commit", "--quiet", "--message", "a change", *words)
        return self.git("rev-parse", "--verify", "--quiet", "HEAD")[0] != before


@contextlib.contextmanager
def repository(files):
    """A repository in which these files are staged."""
    with tempfile.TemporaryDirectory() as room:
        made = Repository(room)
        made.stage(files)
        yield made


def commits():
    """Git runs the hook."""
    with repository({"good.dsc": GOOD}) as made:
        yield "a commit of a good file", made.commit(), True
        made.stage({"bad.dsc": BAD})
        yield "a commit of a bad file", made.commit(), False
        made.stage({"good.dsc": GOOD + "y\n"})
        yield "a commit of one file while a bad one is staged", made.commit("good.dsc"), True
        yield "a commit of that bad file", made.commit(), False
        yield "what is left in the folder for temporary files", os.listdir(made.home), []


def files():
    """Which files are looked at, and what is said of them."""
    with repository({"good.dsc": GOOD, "boards/good.fdf": GOOD, "more.inc": GOOD}) as made:
        yield "good files", made.hook(), ([], 0)
    with repository({"bad.txt": BAD, "dsc": BAD}) as made:
        yield "files of other sorts", made.hook(), ([], 0)
    for what, bad in (
        ("several bad files", ["bad.dsc", "boards/bad.fdf", "boards/more.inc"]),
        ("names that a shell or git could break", ["-o.dsc", "UPPER.DSC", 'quo"te.dsc', "two words.dsc", "\u00fc.dsc"]),
    ):
        with repository({"good.dsc": GOOD, **dict.fromkeys(bad, BAD)}) as made:
            yield what, made.hook(), ([REFUSED % name for name in bad], 1)
    with repository({"bad.dsc": BAD}) as made:
        made.commit("--no-verify")
        made.git("rm", "--quiet", "bad.dsc")
        yield "a file that is removed", made.hook(), ([], 0)
    with repository({}) as made:
        os.symlink("/nowhere", os.path.join(made.folder, "link.dsc"))
        made.git("add", "link.dsc")
        yield "a link", made.hook(), ([], 0)


def staged():
    """What is staged counts, not what is in the work tree."""
    with repository({"board.dsc": GOOD}) as made:
        write(made.folder, "board.dsc", BAD)
        yield "a bad file in the work tree", made.hook(), ([], 0)
    with repository({"board.dsc": BAD}) as made:
        write(made.folder, "board.dsc", GOOD)
        yield "a bad file that is staged", made.hook(), ([REFUSED % "board.dsc"], 1)


def settings():
    """The settings are those that git's configuration names."""
    with repository({"board.dsc": BOARD}) as made:
        yield "no settings", made.hook(), (["board.dsc:1:14: refused (10)"], 1)
        made.git("config", "korzhinay.settings", "boards/spar.settings")
        yield "settings that are not there", made.hook(), ([], 2)
        write(made.folder, "boards/spar.settings", "BOARD = SPAR\n")
        yield "settings that git does not have", made.hook(), ([], 0)
        made.git("add", "boards")
        write(made.folder, "boards/spar.settings", "BOARD = \n")
        yield "settings that are staged", made.hook(), ([], 0)
        made.git("add", "boards")
        yield "wrong settings that are staged", made.hook(), ([], 2)
        write(made.home, "spar.settings", "BOARD = SPAR\n")
        made.git("config", "korzhinay.settings", os.path.join(made.home, "spar.settings"))
        yield "settings outside the repository", made.hook(), ([], 0)
        made.git("config", "korzhinay.settings", "~/spar.settings")
        yield "settings at home", made.hook(), ([], 0)


def notes():
    """Notes are given, and stop a commit only if git's configuration says so."""
    with repository({"cells.dsc": UNSET}) as made:
        yield "a note", made.hook(), (["cells.dsc:1:5: note"], 0)
        made.git("config", "korzhinay.strict", "true")
        yield "a note, strictly", made.hook(), (["cells.dsc:1:5: note"], 1)
        made.stage({"cells.dsc": GOOD})
        yield "no note, strictly", made.hook(), ([], 0)


def defined():
    """DEFINE lines are obeyed: a path after one is refused, and one that overrides a setting has a note."""
    with repository({"cells.dsc": "DEFINE CELLS = 8\n!if $(CELLS) > 4\nx\n!endif\n", "path.fdf": "x\n  DEFINE LAMP = Lamp/Lamp.inf\n"}) as made:
        yield "a path", made.hook(), (["path.fdf:2:17: refused (3)"], 1)
        made.stage({"path.fdf": "!include Paths.inc\n", "cells.settings": "CELLS = 4\n"})
        yield "an included path", made.hook(), (["path.fdf:1:1: note"], 0)
        made.git("config", "korzhinay.settings", "cells.settings")
        yield "a setting that is overridden", made.hook(), (["cells.dsc:1:8: note", "path.fdf:1:1: note"], 0)


def editions():
    """The edition is that of git's configuration, and old without one."""
    with repository({"old.dsc": OLD}) as made:
        yield "the old edition", made.hook(), ([], 0)
        for edition, wanted in ("new", (["old.dsc:1:15: refused (3)"], 1)), ("old", ([], 0)), ("other", ([], 2)):
            made.git("config", "korzhinay.edition", edition)
            yield "the edition %s" % edition, made.hook(), wanted


def checks():
    for part in commits, files, staged, settings, notes, defined, editions:
        yield from part()
