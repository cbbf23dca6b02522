"""Runs of make, what is in a folder after them, and one installation that several parts look at."""
import atexit
import functools
import glob
import os
import re
import shutil
import subprocess
import tempfile

ROOT = os.path.dirname(os.path.dirname(os.path.dirname(os.path.abspath(__file__))))
TARGET = os.path.join(ROOT, "target")
SECONDS = 120
# What make, the package, pkg-config and the loader would take from the environment.
PLACES = "PREFIX DESTDIR BINDIR LIBDIR INCLUDEDIR DATADIR MANDIR PYTHONDIR".split()
TAKEN = [*PLACES, "MAKEFLAGS", "MAKEOVERRIDES", "SOURCE_DATE_EPOCH", "PKG_CONFIG_PATH", "LD_LIBRARY_PATH"]
ENVIRONMENT = {name: value for name, value in os.environ.items() if name not in TAKEN}


def read(*path):
    with open(os.path.join(*path), "rb") as file:
        return file.read()


HEADER = read(ROOT, "include", "korzhinay.h").decode()
VERSION = re.search(r'^#define KORZHINAY_VERSION "(.*)"$', HEADER, re.M)[1]
CALLS = re.findall(r"^(?:void|uint8_t) (korzhinay_\w+)\(", HEADER, re.M)
# The files of the module for Python.
MODULE_FOLDER = os.path.join(ROOT, "python", "korzhinay")
MODULE = sorted(os.path.basename(path) for ending in ("*.py", "py.typed") for path in glob.glob(os.path.join(MODULE_FOLDER, ending)))


def run(*words, folder=None, **environment):
    """What a command prints on its two streams, and its status."""
    environment = {**ENVIRONMENT, **environment}
    done = subprocess.run(words, cwd=folder, env=environment, stdin=subprocess.DEVNULL, capture_output=True, timeout=SECONDS)
    return done.stdout.decode(errors="backslashreplace"), done.stderr.decode(errors="backslashreplace"), done.returncode


def make(*words, umask=0o022, **environment):
    """The status of a run of make, and what it says if it fails."""
    done = subprocess.run(["make", "--silent", *words], cwd=ROOT, env={**ENVIRONMENT, **environment}, stdin=subprocess.DEVNULL, umask=umask,
                          stdout=subprocess.PIPE, stderr=subprocess.STDOUT, timeout=SECONDS)
    return (done.returncode, done.stdout.decode()) if done.returncode else 0


def listing(folder):
    """Every file below a folder with its mode, and every link with what it points to."""
    found = {}
    for place, folders, names in os.walk(folder):
        for name in names + [each for each in folders if os.path.islink(os.path.join(place, each))]:
            path = os.path.join(place, name)
            is_link = os.path.islink(path)
            found[os.path.relpath(path, folder)] = os.readlink(path) if is_link else "%o" % (os.lstat(path).st_mode & 0o7777)
    return found


def made(name):
    """A new folder of its own, which is removed at the end."""
    folder = tempfile.mkdtemp(prefix="korzhinay-%s-" % name)
    atexit.register(shutil.rmtree, folder, ignore_errors=True)
    return folder


@functools.cache
def installed():
    """A folder with an installation, as PREFIX names it."""
    prefix = os.path.join(made("installed"), "prefix")
    status = make("install", "PREFIX=" + prefix)
    if status:
        raise AssertionError("make install: %s" % (status,))
    return prefix


def left_out(what, reason):
    print("LEFT OUT %s: %s" % (what, reason))
