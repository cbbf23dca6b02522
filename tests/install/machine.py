"""The Debian package on this machine: installed, used and removed again. Only root can do that; and nothing is done where a package of this
name was installed before, or where any of its files is there already."""
import os
import shutil

from compiling import compiled, ran
from example import SOURCE
from files import SONAME
from installation import MODULE, VERSION, left_out, made, make, run
from package import in_package, path

COMMAND = "/usr/bin/korzhinay"
PYTHON = "/usr/bin/python3"


def is_known():
    """Whether dpkg knows a package of this name, installed or half so."""
    printed, _, status = run("dpkg-query", "--show", "--showformat=${db:Status-Status}", "korzhinay")
    return status == 0 and printed != "not-installed"


def present():
    """The files of the package that are on this machine."""
    return [each for each in sorted(in_package()) if os.path.lexists("/usr/" + each)]


def reason():
    """Why the machine is left alone, if it is."""
    if not (shutil.which("dpkg") and shutil.which("dpkg-deb")):
        return "dpkg is not installed"
    if os.geteuid() != 0:
        return "it takes root"
    if is_known():
        return "a package of this name is installed"
    if present():
        return "/usr/%s is there already" % present()[0]
    return None


def is_cached():
    """Whether the loader knows the shared library without a search."""
    return SONAME + " " in run("/sbin/ldconfig", "--print-cache")[0]


def check_use():
    folder = made("machine")
    file, program = os.path.join(folder, "board.dsc"), os.path.join(folder, "select")
    with open(file, "w", encoding="utf-8") as output:
        output.write("!if 1 / 1\na\n!endif\n")
    yield "the command", run(COMMAND, "--version"), ("korzhinay %s\n" % VERSION, "", 0)
    yield "the example, compiled", compiled(SOURCE, program), ("", "", 0)
    yield "the example", ran(program, file), ("a\n", "", 0)
    yield "in the loader's cache", is_cached(), True
    if MODULE and os.access(PYTHON, os.X_OK):
        printed = run(PYTHON, "-c", "import korzhinay; print(korzhinay.__file__)", folder=folder)
        yield "the module", printed, ("/usr/lib/python3/dist-packages/korzhinay/__init__.py\n", "", 0)
    elif MODULE:
        left_out("the module for Python", "there is no " + PYTHON)


def checks():
    why = reason()
    if why:
        left_out("the Debian package on this machine", why)
        return
    yield "make deb", make("deb"), 0
    try:
        _, errors, status = run("dpkg", "--install", path())
        yield "installed", (errors, status), ("", 0)
        yield from check_use()
    finally:
        _, errors, status = run("dpkg", "--remove", "korzhinay")
    yield "removed", (errors, status), ("", 0)
    yield "files that are left", present(), []
    folders = {os.path.dirname(each) for each in in_package()}
    own = [each for each in folders if os.path.basename(each) == "korzhinay"]
    yield "folders of its own that are left", [each for each in own if os.path.exists("/usr/" + each)], []
    yield "a package of this name", is_known(), False
    yield "still in the loader's cache", is_cached(), False
