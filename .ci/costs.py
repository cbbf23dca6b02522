"""What the proofs and the must-fail edits cost, crate by crate.

costs.py watch FILE   until it is ended: notes in FILE the processor seconds of each run of the prover for this folder
costs.py report FILE  prints the table, from that file

The watch only reads /proc, so it cannot change a verdict. It looks every tenth of a second, so what a run used after the last look is
missing: less than a hundredth. What `rt ci` passed before on this machine it does not prove again: the table has the crates that it did
prove, and there is none where there is no /proc."""
import collections
import glob
import json
import os
import re
import signal
import sys
import time

ROOT = os.path.dirname(os.path.dirname(os.path.realpath(__file__)))
# The folder that a must-fail edit is tried in.
EDITED = re.compile(r"/rt-edit-\d+-\w+$")
SECONDS_BETWEEN = 0.1


def content(path):
    try:
        with open(path, "rb") as file:
            return file.read()
    except OSError:
        return b""


def subject(process):
    """The crate that a run of the prover is about, and after it '/' for one of its edits; none for other processes."""
    words = content("/proc/%s/cmdline" % process).decode(errors="replace").split("\0")
    try:
        folder, crate = os.readlink("/proc/%s/cwd" % process), words[words.index("--crate-name") + 1]
    except (OSError, ValueError, IndexError):
        return None
    if folder == os.path.join(ROOT, "crates", crate):
        return crate
    return crate + "/" if EDITED.search(folder) and any(word.startswith(ROOT + "/") for word in " ".join(words).replace("=", " ").split()) else None


def look(subjects, seconds):
    """Notes what the runs of the prover have used until now."""
    for process in filter(str.isdigit, os.listdir("/proc")):
        head, _, rest = content("/proc/%s/stat" % process).partition(b") ")
        if not head.endswith(b"(rattle"):
            continue
        numbers = rest.split()
        # Its start tells a process from an earlier one of the same number.
        key = (process, numbers[19])
        if key not in subjects:
            subjects[key] = subject(process)
        if subjects[key]:
            seconds[key] = sum(map(int, numbers[11:15])) / os.sysconf("SC_CLK_TCK")


def watch(path):
    subjects, seconds, ended = {}, {}, []
    signal.signal(signal.SIGTERM, lambda *_: ended.append(True))
    while not ended and os.path.isdir("/proc/self"):
        look(subjects, seconds)
        time.sleep(SECONDS_BETWEEN)
    noted = collections.defaultdict(float)
    for key, used in seconds.items():
        noted[subjects[key]] += used
    with open(path, "w", encoding="utf-8") as file:
        json.dump(noted, file)


def report(path):
    seconds = json.loads(content(path) or b"{}")
    crates = [name for name in seconds if "/" not in name]
    rows, both = [], "check x (1 + edits)"
    for crate in crates:
        edits = len(glob.glob(os.path.join(ROOT, "crates", crate, "must-fail", "*.edit")))
        tried = sum(used for name, used in seconds.items() if name.startswith(crate + "/"))
        rows.append((crate, seconds[crate], edits, seconds[crate] * (1 + edits), tried))
    print("%-24s %9s %6s %20s %11s   (CPU seconds)" % ("crate", "check", "edits", both, "edits took"))
    for row in rows + [("all %d crates" % len(rows), *map(sum, list(zip(*rows))[1:]))] if rows else []:
        print("%-24s %9.1f %6d %20.0f %11.0f" % row)
    print("sum over crates of (check time) x (1 + edits): %.0f CPU seconds" % sum(row[3] for row in rows))


{"watch": watch, "report": report}[sys.argv[1]](*sys.argv[2:])
