"""Layout and lints of everything that is not Rattle: lint.py [fmt] [clippy] [shell] [types], or all of them. Every Rust package and every
shell script of the repository is found, so that a new one is covered; types are those of the Python module. A tool that is not installed
is left out, and named. The last line says how many passed and how many failed."""
import os
import shutil
import subprocess
import sys

from tally import check, end

ROOT = os.path.dirname(os.path.dirname(os.path.abspath(__file__)))
# What was made, and texts that only look like something to be linted.
PASSED_OVER = {"target", "out", ".git", "__pycache__", "cases", "corpus"}


def sources():
    """The files of the repository, by their paths from its root on."""
    for place, folders, names in os.walk(ROOT):
        folders[:] = sorted(set(folders) - PASSED_OVER)
        for name in sorted(names):
            yield os.path.relpath(os.path.join(place, name), ROOT)


def packages():
    return [path for path in sources() if os.path.basename(path) == "Cargo.toml"]


def scripts():
    for path in sources():
        with open(os.path.join(ROOT, path), "rb") as file:
            first = file.readline()
        if path.endswith(".sh") or first.startswith(b"#!") and first.rstrip().endswith(b"sh"):
            yield path


def run(what, *words):
    """A run of a tool passes if it ends with status 0; what it says is shown otherwise."""
    made = {"CARGO_TARGET_DIR": os.path.join(ROOT, "target", "cargo"), "KORZHINAY_LIB_DIR": os.path.join(ROOT, "target", "staticlib")}
    environment = {**made, **os.environ}
    done = subprocess.run(words, cwd=ROOT, env=environment, stdin=subprocess.DEVNULL, stdout=subprocess.PIPE, stderr=subprocess.STDOUT)
    if done.returncode:
        print(done.stdout.decode(errors="backslashreplace"))
    check(what, done.returncode, 0)


def is_installed(*words):
    found = shutil.which(words[0]) and subprocess.run([*words, "--version"], capture_output=True).returncode == 0
    if not found:
        print("LEFT OUT %s: it is not installed" % " ".join(words))
    return found


def fmt():
    if is_installed("cargo", "fmt"):
        for path in packages():
            run("format of %s" % path, "cargo", "fmt", "--check", "--manifest-path", path)


def clippy():
    if is_installed("cargo", "clippy"):
        for path in packages():
            run("lints of %s" % path, "cargo", "clippy", "--quiet", "--offline", "--all-targets", "--manifest-path", path, "--", "-D", "warnings")


def shell():
    if is_installed("shellcheck"):
        for path in scripts():
            run("lints of %s" % path, "shellcheck", path)


def types():
    if is_installed("mypy"):
        run("types of the Python module", "mypy", "--strict", "--cache-dir", os.devnull, "python/korzhinay")


PARTS = {"fmt": fmt, "clippy": clippy, "shell": shell, "types": types}


def main(words):
    unknown = sorted(set(words) - PARTS.keys())
    if unknown:
        sys.exit("%s is none of %s" % (", ".join(unknown), ", ".join(PARTS)))
    for word in words or PARTS:
        PARTS[word]()
    end()


main(sys.argv[1:])
