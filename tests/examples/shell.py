"""How the tests of this folder run programs: with target/ first in PATH, and without what a hook, a make or a person has set."""
import os
import re
import subprocess

ROOT = os.path.dirname(os.path.dirname(os.path.dirname(os.path.abspath(__file__))))
EXAMPLES = os.path.join(ROOT, "examples")
# A run that takes longer hangs.
SECONDS = 60
# Git takes no configuration except that of the repository.
GIT = {"GIT_CONFIG_NOSYSTEM": "1", "GIT_CONFIG_GLOBAL": os.devnull}
# The place and the number of a refusal, and the place of a note.
MESSAGE = re.compile(r"^(\S.*:\d+:\d+: (?:refused \(\d+\)|note)): ", re.M)


def environment(home):
    """The variables of this process, except those of git and make, with a home of its own."""
    kept = {name: value for name, value in os.environ.items() if not name.startswith(("GIT_", "MAKE", "MFLAGS"))}
    path = os.path.join(ROOT, "target") + os.pathsep + os.environ["PATH"]
    return {**kept, "PATH": path, "LC_ALL": "C.UTF-8", "HOME": home, "TMPDIR": home, **GIT}


def run(words, folder, home, given=b""):
    """Standard output, standard error and the status of a program."""
    done = subprocess.run(words, cwd=folder, env=environment(home), input=given, capture_output=True, timeout=SECONDS)
    return done.stdout.decode(errors="backslashreplace"), done.stderr.decode(errors="backslashreplace"), done.returncode


def write(folder, name, content):
    """Writes a file, with the folders above it."""
    path = os.path.join(folder, name)
    os.makedirs(os.path.dirname(path), exist_ok=True)
    with open(path, "w", encoding="utf-8") as file:
        file.write(content)


def messages(text):
    """The refusals and notes of a text, each as its place and its number."""
    return MESSAGE.findall(text)
