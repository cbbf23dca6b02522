"""Runs that one folder cannot hold: several steps, inputs that are made, streams that are closed."""
import os
import shlex
import subprocess

from command import COMMAND, FOUND, ROOT, SECONDS, SUBCOMMANDS, answer, run
from records import NUMBERS, OTHERS, PCD, STRINGS
from tally import chosen

MEBIBYTE = 1 << 20
# One byte more than a description file may have.
TOO_MANY = 65_536 + 1


def listing_is_read_back():
    """A table, listed and read again, is the same table, except for strings that no quotes can hold."""
    table = b"".join(NUMBERS + STRINGS + OTHERS + PCD)
    listing, errors, status = answer(["table", "-"], input=table)
    yield "a table is listed", (errors, status), (b"", 0)
    again = answer(["table", "-s", "-", "-o", "-"], input=listing)
    yield "a listing is read back", again, (b"".join(NUMBERS + STRINGS + PCD), b"", 0)
    yield "comments in a listing", listing.count(b"\n# ") + listing.startswith(b"# "), len(OTHERS)


def examples_of_helps():
    """The example of every help works at the root of the repository, where the command is installed."""
    for subcommand in [[]] + [[name] for name in SUBCOMMANDS]:
        text = answer(subcommand + ["--help"])[0].decode()
        examples = [line.removeprefix("example: ") for line in text.splitlines() if line.startswith("example: ")]
        done = subprocess.run("\n".join(examples), shell=True, cwd=ROOT, env=FOUND, capture_output=True, timeout=SECONDS)
        got = (len(examples), done.stdout != b"", done.stderr, done.returncode)
        yield "the example of help %s" % subcommand, got, (1, True, b"", 0)


def length_of_settings():
    """A file of settings has at most 1 MiB."""
    text = b"A=5\n".rjust(MEBIBYTE, b"\n")
    yield "1 MiB of settings", answer(["table", "-s", "-"], input=text), (b"A=5\n", b"", 0)
    wanted = (b"", b"korzhinay: -: more than 1 MiB of settings\n", 2)
    yield "a byte more", answer(["table", "-s", "-"], input=text + b"\n"), wanted


def line_ends_in_definitions():
    """A setting on the command line can hold line ends, and no string can."""
    for text, shown, reason in (('A="a\nb"', 'A="a\\x0Ab"', "a line end in a string"),
                                ("A=a\nb", "A=a\\x0Ab", "\\x0A in a word; a string that holds it goes into quotes")):
        wanted = (b"", ("korzhinay: -D %s: %s\n" % (shown, reason)).encode(), 2)
        yield "a line end in %r" % text, answer(["eval", "-D", text, "1"]), wanted


def unusable_streams():
    """A standard stream that is closed, or open the other way, is reported, and never taken for empty or for written."""
    reported = " (os error 9)\n"
    file = "examples/window-right.dsc"
    for arguments, stream in (("select -", "0"), ("select -s - " + file, "0"), ("select -t - " + file, "0"), ("eval 1", "1"),
                              ("select --quiet -s examples/buoy.settings " + file, "1"), ("table -D A -o -", "1"), ("--help", "1")):
        other_way = "0>/dev/null" if stream == "0" else "1</dev/null"
        name = "-" if stream == "0" else "standard output"
        for redirection in ("%s>&-" % stream, other_way):
            script = "exec %s %s %s" % (shlex.quote(COMMAND), arguments, redirection)
            done = subprocess.run(script, shell=True, cwd=ROOT, stdin=subprocess.DEVNULL, capture_output=True, text=True, timeout=SECONDS)
            wanted = ("", "korzhinay: %s: Bad file descriptor%s" % (name, reported), 2)
            yield "%s with %s" % (arguments, redirection), (done.stdout, done.stderr, done.returncode), wanted


def input_without_end():
    """Nothing waits for the end of an input that is too long already."""
    for arguments, number in ((["select", "-"], b"(14)"), (["eval", "-t", "-", "1"], b"(1)")):
        process = subprocess.Popen([COMMAND] + arguments, stdin=subprocess.PIPE, stdout=subprocess.PIPE, stderr=subprocess.PIPE)
        process.stdin.write(b"x" * TOO_MANY)
        process.stdin.flush()
        try:
            process.wait(SECONDS)
        except subprocess.TimeoutExpired:
            process.kill()
        errors = process.communicate()[1]
        yield "%s without an end" % arguments[0], (process.returncode, number in errors), (1, True)


def closed_standard_error():
    """The status tells of a refusal and of wrong usage even where nobody reads the message."""
    for arguments, status in ((["eval", "1 / 0"], 1), (["eval"], 2)):
        ours, theirs = os.pipe()
        os.close(ours)
        got = run(arguments, stdout=subprocess.DEVNULL, stderr=theirs).returncode
        os.close(theirs)
        yield "status %d with a closed standard error" % status, got, status


def checks():
    for part in (listing_is_read_back, examples_of_helps, length_of_settings, line_ends_in_definitions, unusable_streams, input_without_end,
                 closed_standard_error):
        if chosen(part.__name__, "steps"):
            yield from part()
