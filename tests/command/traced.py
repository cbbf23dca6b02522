"""How -o gets a file to the disk: strace shows the calls, lets some of them fail, and sends signals at them."""
import functools
import os
import re
import shutil
import subprocess
import tempfile

from command import COMMAND, SECONDS
from folders import everything
from tally import chosen
from writing import OLD, TABLE, failed, put_old

# Which of these is made depends on the machine.
RENAME = "?rename,?renameat,?renameat2"
CALLS = "openat,write,fchown,fchmod,fsync,fdatasync,linkat," + RENAME
# The permissions of a file that was there, and of a new one under this umask.
OLD_MODE, UMASK, NEW_MODE = 0o604, 0o027, 0o640
# The permissions with which a fresh file is made.
MADE = re.compile(r"^openat\(.* O_\S*(?:O_TMPFILE|O_EXCL)\S*, (\d+)\)", re.MULTILINE)

# The ways to the disk: through a file without a name; through one with a name where there are none without, or where they get none, as
# without /proc.
UNNAMED, NAMED, UNLINKED = "without a name", "with a name", "without a link"
TO_DISK = {UNNAMED: ["sync file", "link", "rename", "sync folder"],
           NAMED: ["sync file", "rename", "sync folder"],
           UNLINKED: ["sync file", "link", "sync file", "rename", "sync folder"]}

REASONS = {"EIO": "Input/output error (os error 5)", "ENOSPC": "No space left on device (os error 28)",
           "EPERM": "Operation not permitted (os error 1)"}
# Which call fails, and how, and what is in the file then; None where it does not matter that it fails.
FAULTS = [("write", "1", "ENOSPC", OLD), ("fchmod", "1", "EPERM", OLD), ("fsync", "1", "EIO", OLD), (RENAME, "1", "EIO", OLD),
          ("fsync", "2", "EIO", TABLE), ("fsync", "2", "EINVAL", None), ("fchown", "1+", "EPERM", None)]
# At which call of which way a signal comes, and what is in the file then.
SIGNALS = [(UNNAMED, "write", "1", OLD), (UNNAMED, "fchmod", "1", OLD), (UNNAMED, "fsync", "1", OLD), (UNNAMED, "linkat", "1", TABLE),
           (UNNAMED, RENAME, "1", TABLE), (UNNAMED, "fsync", "2", TABLE), (NAMED, "write", "1", TABLE), (NAMED, "fsync", "1", TABLE),
           (NAMED, RENAME, "1", TABLE), (NAMED, "fsync", "2", TABLE), (UNLINKED, "fsync", "1", OLD), (UNLINKED, "fsync", "2", TABLE)]


def traced(folder, injections):
    """A run under strace in a folder: its message and status, and the calls that it makes."""
    with tempfile.NamedTemporaryFile() as log:
        words = ["strace", "-y", "-o", log.name, "-e", "trace=" + CALLS]
        for injection in injections:
            words += ["-e", "inject=" + injection]
        words += [COMMAND, "table", "-D", "A=0", "-o", "table.bin"]
        done = subprocess.run(words, cwd=folder, capture_output=True, timeout=SECONDS, umask=UMASK)
        calls = log.read().decode().splitlines()
    return (done.stderr.decode(), done.returncode), calls


def outcome(has_old, injections=()):
    """The message and the status of a run in a fresh folder, what is there then, the permissions of the table and the calls."""
    with tempfile.TemporaryDirectory() as folder:
        if has_old:
            put_old(folder, "table.bin", mode=OLD_MODE)
        said, calls = traced(folder, injections)
        mode = os.stat(os.path.join(folder, "table.bin")).st_mode & 0o777
        return said, everything(folder), mode, [line.replace(os.path.realpath(folder), "FOLDER") for line in calls]


@functools.cache
def opening():
    """Which call of openat makes the file without a name."""
    opened = [line for line in outcome(True)[-1] if line.startswith("openat(")]
    return 1 + next(place for place, line in enumerate(opened) if "O_TMPFILE" in line)


def ways():
    """What has to fail for each of the ways."""
    return {UNNAMED: [], NAMED: ["openat:error=EOPNOTSUPP:when=%d" % opening()], UNLINKED: ["linkat:error=ENOENT:when=1"]}


def to_disk(calls):
    """The calls that put bytes and names on the disk."""
    for line in calls:
        call = line.split("(")[0]
        if call in ("fsync", "fdatasync"):
            yield "sync folder" if "<FOLDER>" in line else "sync file"
        elif call == "linkat" or call.startswith("rename"):
            yield "link" if call == "linkat" else "rename"


def order():
    """The bytes are on the disk before the file gets its name, and the name before the run ends. Nobody else reads what takes the place
    of an old file before it has its permissions."""
    for has_old, mode, made in ((False, NEW_MODE, "0666"), (True, OLD_MODE, "0600")):
        for way, injections in ways().items():
            *got, calls = outcome(has_old, injections)
            wanted = [("", 0), {"table.bin": TABLE}, mode, TO_DISK[way], {made}]
            yield "%s, over an old file: %s" % (way, has_old), got + [list(to_disk(calls)), set(MADE.findall("\n".join(calls)))], wanted


def faults():
    """A call that fails leaves the old file, and nothing beside it. The owner may be another one, and a folder may have no sync."""
    for way in (UNNAMED, NAMED):
        for call, when, fault, content in FAULTS:
            *got, _ = outcome(True, ways()[way] + ["%s:error=%s:when=%s" % (call, fault, when)])
            said = failed("table.bin", REASONS[fault]) if content else ("", 0)
            yield "%s, %s %s fails with %s" % (way, call, when, fault), got, [said, {"table.bin": content or TABLE}, OLD_MODE]


def signals_at_calls():
    """A signal before the file has a name leaves the old file, a later one the new file."""
    first = opening()
    moments = SIGNALS + [(UNNAMED, "openat", str(first), OLD), (UNLINKED, "openat", str(first + 1), TABLE)]
    for way, call, when, content in moments:
        said, found, _, _ = outcome(True, ways()[way] + ["%s:signal=SIGTERM:when=%s" % (call, when)])
        yield "%s, a signal at %s %s" % (way, call, when), (said, found), (("", -15), {"table.bin": content})


def is_possible():
    """Whether strace is there and may trace, and there are files without a name."""
    if not shutil.which("strace") or subprocess.run(["strace", "-o", os.devnull, "true"], capture_output=True).returncode:
        print("LEFT OUT strace: it is not installed, or may not trace")
        return False
    try:
        os.close(os.open(tempfile.gettempdir(), os.O_TMPFILE | os.O_WRONLY))
    except OSError:
        print("LEFT OUT the calls of -o: %s can have no files without a name" % tempfile.gettempdir())
        return False
    return True


def checks():
    parts = [part for part in (order, faults, signals_at_calls) if chosen("traced_" + part.__name__, "traced")]
    if parts and is_possible():
        for part in parts:
            yield from part()
