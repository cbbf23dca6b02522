"""What select writes to a file with -o: the whole answer or nothing, and never over what it reads."""
import os
import subprocess
import tempfile

from command import answer, answer_with_room
from folders import content, everything, fill, put
from records import NUMBERS
from tally import chosen

TEXT = b"a\n!if $(A)\nb\n!else\nc\n!endif\n"
KEPT = b"a\nc\n"
FILES = {"a.dsc": TEXT, "b.dsc": TEXT, "refused.dsc": b"a\n!endif\n", "buoy.settings": b"A=0\n", "buoy.bin": NUMBERS[0],
         "out.dsc": b"before\n"}
# More than any answer here has.
LONG = b"x" * 1000


def prepare(folder):
    """Puts the files into a folder: besides, other names for a.dsc and a folder to go round through."""
    fill(folder, FILES)
    os.mkdir(os.path.join(folder, "sub"))
    os.link(os.path.join(folder, "a.dsc"), os.path.join(folder, "hard.dsc"))
    os.symlink("a.dsc", os.path.join(folder, "soft.dsc"))


def over_its_input():
    """OUT that is read by the run, under whatever name, is an error, and stays as it is."""
    for what, words, read in (
            ("the same path", "-o a.dsc a.dsc", None),
            ("the same path, attached", "-oa.dsc a.dsc", None),
            ("another path", "-o ./a.dsc a.dsc", None),
            ("a path through a folder", "-o a.dsc sub/../a.dsc", None),
            ("a hard link", "-o hard.dsc a.dsc", None),
            ("a symbolic link to FILE", "-o soft.dsc a.dsc", None),
            ("a symbolic link as FILE", "-o a.dsc soft.dsc", None),
            ("the second of two files", "-o b.dsc a.dsc b.dsc", None),
            ("the settings", "-o buoy.settings -s buoy.settings a.dsc", None),
            ("the table", "-o buoy.bin -t buoy.bin a.dsc", None),
            ("standard input", "-o a.dsc -", "a.dsc"),
            ("standard input through a link", "-o soft.dsc -", "a.dsc"),
            ("settings from standard input", "-o buoy.settings -s - a.dsc", "buoy.settings"),
            ("a table from standard input", "-o buoy.bin -t - a.dsc", "buoy.bin")):
        with tempfile.TemporaryDirectory() as folder:
            prepare(folder)
            before = everything(folder)
            with open(os.path.join(folder, read) if read else os.devnull, "rb") as file:
                output, errors, status = answer(["select", "--quiet"] + words.split(), folder=folder, stdin=file)
            target = words.split()[0].removeprefix("-o") or words.split()[1]
            message = "korzhinay: %s: the run reads this file, so it is not written over\n" % target
            got = output, errors, status, everything(folder) == before
        yield "over its input: %s" % what, got, (b"", message.encode(), 2, True)


def old_output_stays():
    """A run without an answer leaves OUT as it was, and nothing beside it."""
    for what, words, wanted in (
            ("a refused file", "-o out.dsc refused.dsc", 1),
            ("a refused file of two", "-o out.dsc a.dsc refused.dsc", 1),
            ("a note under --strict", "--strict -o out.dsc a.dsc", 1),
            ("an absent file", "-o out.dsc nothing.dsc", 2),
            ("an absent file of settings", "-s nothing.settings -o out.dsc a.dsc", 2),
            ("a wrong setting", "-D a=1 -o out.dsc a.dsc", 2),
            ("wrong usage", "--annotate --marks -o out.dsc a.dsc", 2)):
        with tempfile.TemporaryDirectory() as folder:
            prepare(folder)
            before = everything(folder)
            output, _, status = answer(["select"] + words.split(), folder=folder)
            yield "OUT after %s" % what, (output, status, everything(folder) == before), (b"", wanted, True)


def old_output_is_replaced():
    """OUT is replaced as a whole; a link to it stays a link, and it keeps its permissions."""
    with tempfile.TemporaryDirectory() as folder:
        file, link = put(folder, "out.dsc", text=LONG, mode=0o640), os.path.join(folder, "link.dsc")
        os.symlink("out.dsc", link)
        got = answer(["select", "-U", "A", "-o", link, "-"], input=TEXT)
        yield "over an older OUT", got, (b"", b"", 0)
        yield "OUT through a link", (os.path.islink(link), os.stat(file).st_mode & 0o777, content(file)), (True, 0o640, KEPT)


def output_that_cannot_be_written():
    """If only the first bytes can be written, the old ones are still there, and nothing else."""
    with tempfile.TemporaryDirectory() as folder:
        file = put(folder, "out.dsc", text=b"before\n")
        got = answer_with_room(1, ["select", "-U", "A", "-o", file, "-"], input=TEXT)
        yield "OUT that cannot be written", got, (b"", b"korzhinay: %s: File too large (os error 27)\n" % file.encode(), 2)
        yield "OUT before it", everything(folder), {"out.dsc": b"before\n"}


def forms_of_the_option():
    """The option is attached, long, or long with `=`; `-` is no file."""
    for subcommand, rest, wanted in (("select", ["-U", "A", "-"], KEPT), ("table", ["-D", "A=0"], NUMBERS[0])):
        for form in (["-oout"], ["--output", "out"], ["--output=out"]):
            with tempfile.TemporaryDirectory() as folder:
                got = answer([subcommand] + form + rest, folder=folder, input=TEXT) + (everything(folder),)
            yield "%s %s" % (subcommand, " ".join(form)), got, (b"", b"", 0, {"out": wanted})
        for form in (["-o-"], ["-o", "-"], ["--output=-"]):
            with tempfile.TemporaryDirectory() as folder:
                got = answer([subcommand] + form + rest, folder=folder, input=TEXT) + (everything(folder),)
            yield "%s %s" % (subcommand, " ".join(form)), got, (wanted, b"", 0, {})


def device_as_output():
    """A device stays a device."""
    yield "OUT is /dev/null", answer(["select", "-U", "A", "-o", os.devnull, "-"], input=TEXT), (b"", b"", 0)
    yield "/dev/null after that", os.path.isfile(os.devnull), False


def device_as_both():
    """A device or a pipe may be read and written in one run: nothing is written over."""
    yield "/dev/null as both", answer(["select", "-o", os.devnull, os.devnull]), (b"", b"", 0)
    yield "/dev/null through standard input", answer(["select", "-o", os.devnull, "-"], stdin=subprocess.DEVNULL), (b"", b"", 0)
    with tempfile.TemporaryDirectory() as folder:
        pipe = os.path.join(folder, "pipe")
        os.mkfifo(pipe)
        ours = os.open(pipe, os.O_RDONLY | os.O_NONBLOCK)
        with open(pipe, "wb") as file:
            file.write(TEXT)
        got = answer(["select", "-U", "A", "-o", pipe, "-"], stdin=ours), os.read(ours, len(LONG))
        os.close(ours)
    yield "a pipe as both", got, ((b"", b"", 0), KEPT)


def checks():
    for part in (over_its_input, old_output_stays, old_output_is_replaced, output_that_cannot_be_written, forms_of_the_option,
                 device_as_output, device_as_both):
        if chosen(part.__name__, "output"):
            yield from part()
