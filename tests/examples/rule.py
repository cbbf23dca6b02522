"""The rule for make: the outputs of two boards, when they are made again, and that a failure leaves none."""
import os
import tempfile

from shell import EXAMPLES, messages, run, write

RULES = os.path.join(EXAMPLES, "rules.mk")
DESCRIPTION = '!if $(BOARD) == "SPAR"\nspar\n!else\nother\n!endif\n'
# It is refused for a board without cells.
CELLS = DESCRIPTION + "!if 12 / $(CELLS) > 2\ncells\n!endif\n"
# A default, and what is kept for each number of cells.
DEFAULT = "!ifndef CELLS\nDEFINE CELLS = 8\n!endif\n" + "".join("!if $(CELLS) == %d\n%d\n!endif\n" % (each, each) for each in (4, 6, 8))
SPAR = "BOARD = SPAR\nCELLS = 4\n"
DRIFTER = "BOARD = DRIFTER\nCELLS = 0\n"


class Boards:
    """A folder with a description file and the settings of two boards."""

    def __init__(self, folder):
        self.folder = folder
        write(folder, "settings/spar.settings", SPAR)
        write(folder, "settings/drifter.settings", DRIFTER)
        write(folder, "Buoy.dsc", DESCRIPTION)

    def make(self, *words):
        """A run of make: how often the command was run, the refusals and notes, and the status."""
        words = ["make", "-f", RULES, "DESCRIPTION=Buoy.dsc", "BOARDS=spar drifter", *words]
        shown, said, status = run(words, self.folder, self.folder)
        return shown.count("korzhinay select"), messages(said), status

    def outputs(self):
        """The files in build/ with their content."""
        build = os.path.join(self.folder, "build")
        return {name: open(os.path.join(build, name), encoding="utf-8").read() for name in sorted(os.listdir(build))}

    def change(self, description):
        """A new description file, newer than every output."""
        write(self.folder, "Buoy.dsc", description)
        for name in self.outputs():
            os.utime(os.path.join(self.folder, "build", name), (0, 0))


def checks():
    with tempfile.TemporaryDirectory() as folder:
        boards = Boards(folder)
        yield "two boards", boards.make("NOTES=--quiet"), (2, [], 0)
        yield "their outputs", boards.outputs(), {"drifter.dsc": "other\n", "spar.dsc": "spar\n"}
        yield "made already", boards.make(), (0, [], 0)
        boards.change(CELLS)
        yield "one board is refused", boards.make("--keep-going"), (2, ["Buoy.dsc:6:8: refused (12)"], 2)
        yield "the refused one has no output", boards.outputs(), {"spar.dsc": "spar\ncells\n"}
        yield "it is refused again", boards.make(), (1, ["Buoy.dsc:6:8: refused (12)"], 2)
        write(folder, "settings/drifter.settings", DRIFTER.replace("0", "6"))
        yield "it is mended", boards.make(), (1, [], 0)
        yield "all outputs", boards.outputs(), {"drifter.dsc": "other\n", "spar.dsc": "spar\ncells\n"}
        boards.change(DESCRIPTION.replace('"', ""))
        yield "old spellings", boards.make("NOTES=--quiet"), (2, [], 0)
        boards.change(DESCRIPTION.replace('"', ""))
        yield "old spellings, noted", boards.make("--keep-going", "NOTES=--warn-old --strict"), (2, ["Buoy.dsc:1:17: note"] * 2, 2)
        yield "old spellings, refused", boards.make("--keep-going", "EDITION=new"), (2, ["Buoy.dsc:1:17: refused (3)"] * 2, 2)
        boards.change(DEFAULT)
        yield "a default that the boards set", boards.make("NOTES=--quiet"), (2, [], 0)
        yield "by their settings", boards.outputs(), {"drifter.dsc": "6\n", "spar.dsc": "4\n"}
        boards.change(DEFAULT.split("\n", 1)[1].replace("!endif\n", "", 1))
        yield "a DEFINE that overrides them", boards.make("NOTES=--quiet"), (2, [], 0)
        yield "by the file", boards.outputs(), dict.fromkeys(["drifter.dsc", "spar.dsc"], "DEFINE CELLS = 8\n8\n")
        boards.change(DEFAULT.split("\n", 1)[1].replace("!endif\n", "", 1))
        yield "a DEFINE, strictly", boards.make("--keep-going", "NOTES=--strict"), (2, ["Buoy.dsc:1:8: note"] * 2, 2)
        boards.change("!if $(CELS) > 4\nx\n!endif\n")
        yield "a note, strictly", boards.make("--keep-going", "NOTES=--strict"), (2, ["Buoy.dsc:1:5: note"] * 2, 2)
        yield "nothing is left", boards.outputs(), {}
