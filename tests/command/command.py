"""The command, as the tests of this folder run it."""
import functools
import os
import resource
import signal
import subprocess
import tempfile

from folders import fill

HERE = os.path.dirname(os.path.abspath(__file__))
ROOT = os.path.normpath(os.path.join(HERE, "..", ".."))
COMMAND = os.path.join(ROOT, "target", "korzhinay")
SUBCOMMANDS = ["select", "eval", "field", "tokens", "table", "names"]
DATUM_TYPES = ["VOID*", "BOOLEAN", "UINT8", "UINT16", "UINT32", "UINT64"]
# An environment in which a shell finds the command.
FOUND = {**os.environ, "PATH": os.path.dirname(COMMAND) + os.pathsep + os.environ["PATH"]}
# A run that takes longer hangs.
SECONDS = 20


def run(arguments, folder=ROOT, environment=None, **more):
    """A run of the command; NO_COLOR is set only if the test says so. One that hangs has that as its status."""
    inherited = {name: value for name, value in os.environ.items() if name != "NO_COLOR"}
    environment = {**inherited, **(environment or {})}
    try:
        return subprocess.run([COMMAND] + arguments, cwd=folder, env=environment, timeout=SECONDS, **more)
    except subprocess.TimeoutExpired:
        return subprocess.CompletedProcess(arguments, "it hangs", b"", b"")


def answer(arguments, **more):
    """Standard output, standard error and the status of a run."""
    done = run(arguments, capture_output=True, **more)
    return done.stdout, done.stderr, done.returncode


def answer_beside(files, arguments, **more):
    """The same of a run in a fresh folder that has these files, given by their names and contents."""
    with tempfile.TemporaryDirectory() as folder:
        fill(folder, files)
        return answer(arguments, folder=folder, **more)


def answer_with_room(length, arguments, **more):
    """The same of a run that can write only this many bytes to a file."""
    def limit():
        signal.signal(signal.SIGXFSZ, signal.SIG_IGN)
        resource.setrlimit(resource.RLIMIT_FSIZE, (length, length))

    return answer(arguments, preexec_fn=limit, **more)


@functools.cache
def usage(word):
    """What the help of a subcommand says first, and for any other word the help of all of them."""
    shown = answer(([word] if word in SUBCOMMANDS else []) + ["--help"])[0]
    return shown.split(b"\n\n")[0] + b"\n"
