"""What -o writes: a file is replaced as a whole, where it is, or stays as it was, and nothing is left beside it."""
import os
import random
import shutil
import signal
import stat
import subprocess
import tempfile
import time

from command import COMMAND, SECONDS, answer, answer_with_room
from folders import content, everything, put
from records import NUMBERS, PCD, RECORD, record
from tally import chosen

# What `-D A=0` makes, and what a file has before.
TABLE, OLD = NUMBERS[0], b"old"
NOBODY = 65534
# As many names as a table holds.
NAMES = 512
RUNS = 60
SIGNALS = [signal.SIGTERM, signal.SIGINT, signal.SIGHUP]
# What the moments of the signals are drawn from; a check that fails names it.
SEED = int(os.environ.get("KORZHINAY_SEED") or random.randrange(1 << 32))


def put_old(*path, **more):
    return put(*path, text=OLD, **more)


def write(path, **more):
    """A run that writes a table: its message and status, since nothing goes to standard output."""
    output, message, status = answer(["table", "-D", "A=0", "-o", path], **more)
    return (output + message).decode(), status


def failed(path, reason):
    return "korzhinay: %s: %s\n" % (path, reason), 2


def table_over_itself():
    """A table can be written over the one that it was made from."""
    with tempfile.TemporaryDirectory() as folder:
        file = put(folder, "table.bin", text=b"".join(NUMBERS))
        got = answer(["table", "-t", file, "-D", "a.B=z", "-o", file]) + (content(file),)
    yield "a table over itself", got, (b"", b"", 0, b"".join(NUMBERS + PCD))


def table_over_its_settings():
    """A table is never written over a file of settings that it was made from."""
    for words, read in (("-s a.settings -o a.settings", None), ("-s a.settings -t a.bin -o ./a.settings", None),
                        ("-s - -o a.settings", "a.settings")):
        with tempfile.TemporaryDirectory() as folder:
            put(folder, "a.bin", text=TABLE)
            settings = put(folder, "a.settings", text=b"A=1\n")
            with open(settings if read else os.devnull, "rb") as file:
                got = answer(["table"] + words.split(), folder=folder, stdin=file), everything(folder)
        message = "korzhinay: %s: the run reads this file, so it is not written over\n" % words.split()[-1]
        yield "table %s" % words, got, ((b"", message.encode(), 2), {"a.bin": TABLE, "a.settings": b"A=1\n"})


def table_that_cannot_be_written():
    """A table of which only the first records can be written leaves the old one as it was, and nothing beside it."""
    with tempfile.TemporaryDirectory() as folder:
        file = put_old(folder, "table.bin")
        got = answer_with_room(RECORD, ["table", "-D", "A=1", "-D", "B=2", "-o", file])
        wanted = (b"", b"korzhinay: %s: File too large (os error 27)\n" % file.encode(), 2)
        yield "a table that cannot be written", (got, everything(folder)), (wanted, {"table.bin": OLD})


def permissions():
    """The old file's permissions and owner stay; a new file has those that the umask leaves."""
    for mode in (0o600, 0o640, 0o666, 0o755, 0o200):
        with tempfile.TemporaryDirectory() as folder:
            file = put_old(folder, "table.bin", mode=mode)
            owner = (1234, 5678) if os.geteuid() == 0 else (os.geteuid(), os.getegid())
            os.chown(file, *owner)
            got = write(file)
            found = os.stat(file)
            yield "a file with %o" % mode, (got, stat.S_IMODE(found.st_mode), (found.st_uid, found.st_gid)), (("", 0), mode, owner)
    for umask in (0o000, 0o022, 0o077):
        with tempfile.TemporaryDirectory() as folder:
            file = os.path.join(folder, "table.bin")
            got = write(file, umask=umask)
            yield "a new file, umask %o" % umask, (got, stat.S_IMODE(os.stat(file).st_mode)), (("", 0), 0o666 & ~umask)


def links():
    """A link stays a link, wherever it leads and whether or not a file is there."""
    # The links, and where the table has to be then.
    ways = {"beside": ({"link": "table.bin"}, "table.bin"),
            "in a folder": ({"link": "in/table.bin"}, "in/table.bin"),
            "back": ({"in/link": "../table.bin"}, "table.bin"),
            "a chain": ({"link": "in/next", "in/next": "../other", "other": "in/table.bin"}, "in/table.bin"),
            "a linked folder": ({"there": "in", "in/link": "../table.bin"}, "table.bin")}
    starts = {"back": "in/link", "a linked folder": "there/link"}
    for name, (made, target) in ways.items():
        for before in ({}, {target: OLD}):
            with tempfile.TemporaryDirectory() as folder:
                os.mkdir(os.path.join(folder, "in"))
                for link, to in made.items():
                    os.symlink(to, os.path.join(folder, link))
                for file, text in before.items():
                    put(folder, file, text=text)
                got = write(starts.get(name, "link"), folder=folder), everything(folder)
            yield "through a link: %s, %d files before" % (name, len(before)), got, (("", 0), {**made, target: TABLE})


def link_to_a_whole_path():
    """A link may lead to a path from the root on."""
    with tempfile.TemporaryDirectory() as folder:
        target, link = os.path.join(folder, "table.bin"), os.path.join(folder, "link")
        os.symlink(target, link)
        yield "through a link from the root on", (write(link), everything(folder)), (("", 0), {"link": target, "table.bin": TABLE})


def chains_of_links():
    """As many links are followed as Linux follows; a loop is an error."""
    reason = "Too many levels of symbolic links (os error 40)"
    for count in (40, 41):
        with tempfile.TemporaryDirectory() as folder:
            for number in range(count):
                os.symlink("%d" % (number + 1), os.path.join(folder, "%d" % number))
            got = write("0", folder=folder), os.path.exists(os.path.join(folder, "%d" % count))
            yield "%d links" % count, got, (("", 0), True) if count == 40 else (failed("0", reason), False)
    with tempfile.TemporaryDirectory() as folder:
        os.symlink("b", os.path.join(folder, "a"))
        os.symlink("a", os.path.join(folder, "b"))
        yield "a loop of links", (write("a", folder=folder), everything(folder)), (failed("a", reason), {"a": "b", "b": "a"})


def longest_name():
    """A name may be as long as file systems allow."""
    for name in ("n" * 255, "\u65e5" * 85):
        for before in ({}, {name: OLD}):
            with tempfile.TemporaryDirectory() as folder:
                for file, text in before.items():
                    put(folder, file, text=text)
                got = write(name, folder=folder), everything(folder)
            yield "a name of 255 bytes, %d files before" % len(before), got, (("", 0), {name: TABLE})
    with tempfile.TemporaryDirectory() as folder:
        got = write("n" * 256, folder=folder), everything(folder)
    yield "a name of 256 bytes", got, (failed("n" * 256, "File name too long (os error 36)"), {})


def names_of_no_file():
    """A path that no file can have is an error."""
    for path in ("new/", "nothing/table.bin", "", "link/", "table.bin/new"):
        with tempfile.TemporaryDirectory() as folder:
            put_old(folder, "table.bin")
            os.symlink("nothing/", os.path.join(folder, "link"))
            reason = "Not a directory (os error 20)" if path.startswith("table.bin") else "No such file or directory (os error 2)"
            wanted = failed(path, reason), {"table.bin": OLD, "link": "nothing/"}
            yield "-o %r" % path, (write(path, folder=folder), everything(folder)), wanted


def taken_names():
    """A file that has the name of the fresh one already is left alone."""
    with tempfile.TemporaryDirectory() as folder:
        put_old(folder, "table.bin")
        script = 'echo mine >".korzhinay-$$-0"; exec "$0" table -D A=0 -o table.bin'
        done = subprocess.run(["sh", "-c", script, COMMAND], cwd=folder, capture_output=True, timeout=SECONDS)
        yield "a taken name", (done.returncode, sorted(everything(folder).values())), (0, sorted([b"mine\n", TABLE]))


def written_in_place():
    """What is no regular file, or a file without a name, is written where it is."""
    with tempfile.TemporaryDirectory() as folder:
        pipe = os.path.join(folder, "pipe")
        os.mkfifo(pipe)
        ours = os.open(pipe, os.O_RDONLY | os.O_NONBLOCK)
        got = write(pipe), os.read(ours, 2 * RECORD), stat.S_ISFIFO(os.stat(pipe).st_mode)
        os.close(ours)
        yield "a pipe with a name", got, (("", 0), TABLE, True)
        with open(put_old(folder, "table.bin"), "r+b", buffering=0) as file:
            os.remove(file.name)
            file.seek(len(OLD))
            said = write("/dev/fd/%d" % file.fileno(), pass_fds=[file.fileno()])
            file.seek(0)
            got = said, file.read(), os.listdir(folder)
        yield "a file without a name", got, (("", 0), OLD + TABLE, ["pipe"])
    yield "/dev/null", (write("/dev/null"), stat.S_ISCHR(os.stat("/dev/null").st_mode)), (("", 0), True)
    yield "/dev/stdout", answer(["table", "-D", "A=0", "-o", "/dev/stdout"]), (TABLE, b"", 0)
    yield "/dev/stderr", answer(["table", "-D", "A=0", "-o", "/dev/stderr"]), (b"", TABLE, 0)


def between_others():
    """What others write to the same open file before and after stays, and so does the file."""
    around = b"before\n" + TABLE + b"after\n"
    for path, redirection in (("/dev/stdout", "{}"), ("/dev/fd/1", "{}"), ("/dev/stderr", "{} 2>&1"), ("/dev/fd/7", "{} 7>&1")):
        for sign, wanted in ((">", around), (">>", OLD + around)):
            with tempfile.TemporaryDirectory() as folder:
                file = put_old(folder, "file")
                number = os.stat(file).st_ino
                script = '(echo before; "$0" table -D A=0 -o %s; echo after) %s' % (path, redirection.format(sign + "file"))
                done = subprocess.run(["sh", "-c", script, COMMAND], cwd=folder, capture_output=True, timeout=SECONDS)
                got = (done.stdout, done.stderr, done.returncode), everything(folder), os.stat(file).st_ino == number
            yield "-o %s with %s" % (path, sign), got, ((b"", b"", 0), {"file": wanted}, True)


def as_nobody(room, path):
    """A run of somebody who is not root, in a room of a folder that has a copy of the command."""
    folder = os.path.dirname(room)
    os.chmod(folder, 0o755)
    command = shutil.copy(COMMAND, folder)
    other = {"user": NOBODY, "group": NOBODY, "extra_groups": []} if os.geteuid() == 0 else {}
    done = subprocess.run([command, "table", "-D", "A=0", "-o", path], cwd=room, capture_output=True, timeout=SECONDS, **other)
    return (done.stdout + done.stderr).decode(), done.returncode


def not_permitted():
    """A file that may not be written, and one in a folder that may not be written, stay as they are; a folder need not be readable."""
    denied = failed("table.bin", "Permission denied (os error 13)"), {"table.bin": OLD}
    for name, folder_mode, mode, wanted in (("a file that may not be written", 0o777, 0o444, denied),
                                            ("a folder that may not be written", 0o555, 0o666, denied),
                                            ("a folder that may not be read", 0o333, 0o666, (("", 0), {"table.bin": TABLE}))):
        with tempfile.TemporaryDirectory() as folder:
            room = os.path.join(folder, "room")
            os.mkdir(room)
            put_old(room, "table.bin", mode=mode)
            os.chmod(room, folder_mode)
            got = as_nobody(room, "table.bin")
            os.chmod(room, 0o777)
            yield name, (got, everything(room)), wanted


def large(number):
    """A table of 512 names, each with this number, and the settings that make it."""
    names = [b"NAME%03d" % place for place in range(NAMES)]
    table = b"".join(record(name, 0, number.to_bytes(8, "little")) for name in names)
    return table, b"".join(b"%s=%d\n" % (name, number) for name in names)


def signals():
    """A signal at any moment leaves the old table or the new one, and nothing else."""
    moments = random.Random(SEED)
    tables, settings = zip(large(1), large(2))
    with tempfile.TemporaryDirectory() as folder, tempfile.TemporaryDirectory() as room:
        files = [put(folder, "%d.settings" % place, text=text) for place, text in enumerate(settings)]
        commands = [[COMMAND, "table", "-s", file, "-o", os.path.join(room, "table.bin")] for file in files]
        start = time.monotonic()
        subprocess.run(commands[1], timeout=SECONDS)
        longest = 1.5 * (time.monotonic() - start)
        yield "a large table", everything(room), {"table.bin": tables[1]}
        for number in range(RUNS):
            sent = moments.choice(SIGNALS)
            delay = longest * moments.random()
            process = subprocess.Popen(commands[number % 2], stderr=subprocess.PIPE)
            time.sleep(delay)
            process.send_signal(sent)
            message = process.communicate(timeout=SECONDS)[1]
            found = everything(room)
            is_whole = found in [{"table.bin": table} for table in tables]
            is_new = found == {"table.bin": tables[number % 2]}
            is_ended = process.returncode == -sent or process.returncode == 0 and is_new
            what = "%s after %.4f seconds, KORZHINAY_SEED=%d" % (sent.name, delay, SEED)
            yield what, (message, is_whole, is_ended), (b"", True, True)


def checks():
    for part in (table_over_itself, table_over_its_settings, table_that_cannot_be_written, permissions, links, link_to_a_whole_path,
                 chains_of_links, longest_name, names_of_no_file, taken_names, written_in_place, between_others, not_permitted, signals):
        if chosen(part.__name__, "writing"):
            yield from part()
