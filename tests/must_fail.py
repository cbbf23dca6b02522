"""Tries the must-fail edits of one crate: must_fail.py CRATE [EDIT].. What is proved stays so. With EDIT.. the work is done in a copy, which
has these edits alone.

An edit has to be refused because a fact fails. One whose refusal only speaks of names that the edit took away shows nothing; `rt` says so
in its line, and such edits are named at the end."""
import glob
import os
import re
import shutil
import subprocess
import sys
import tempfile

ROOT = os.path.dirname(os.path.dirname(os.path.abspath(__file__)))
SHAPE = re.compile(rb"^(?:rt: )?must-fail (\S+): refused, as it must be \((?:only because|only by)", re.M)


def edits_of(crate):
    return {os.path.basename(path)[: -len(".edit")]: path for path in glob.glob(os.path.join(ROOT, "crates", crate, "must-fail", "*.edit"))}


def copied(room, crate, edits):
    """Copies what `rt` needs, with these edits alone; `rt` begins with what it proved here."""
    shutil.copy(os.path.join(ROOT, "crates.txt"), room)
    shutil.copytree(os.path.join(ROOT, "crates"), os.path.join(room, "crates"), ignore=shutil.ignore_patterns("must-fail", "out"))
    subprocess.run(["git", "init", "--quiet"], cwd=room, check=True)
    folder = os.path.join(room, "crates", crate, "must-fail")
    os.mkdir(folder)
    for path in edits:
        shutil.copy(path, folder)


def tried(room, crate):
    """Runs the edits, shows what `rt` says of them, and gives its status and what it said."""
    said = b""
    with subprocess.Popen(["rt", "must-fail", crate], cwd=room, stdout=subprocess.PIPE, stderr=subprocess.STDOUT) as run:
        for line in run.stdout:
            said += line
            if b"must-fail " in line or line.startswith((b"rt: FAILED", b"rt: note: bad")):
                print(line.decode(errors="backslashreplace"), end="", flush=True)
    return run.returncode, said


def main(crate, *names):
    found = edits_of(crate)
    unknown = sorted(set(names) - found.keys())
    if not found or unknown:
        sys.exit("%s: no such edit: %s" % (crate, ", ".join(unknown)) if found else "%s: no such crate, or it has no edit" % crate)
    with tempfile.TemporaryDirectory() as room:
        if names:
            copied(room, crate, [found[name] for name in names])
        status, said = tried(room if names else ROOT, crate)
    for name in SHAPE.findall(said):
        print("%s: is there a fact that fails besides?" % name.decode(errors="backslashreplace"))
    return status


if len(sys.argv) < 2:
    sys.exit(__doc__)
sys.exit(main(*sys.argv[1:]))
