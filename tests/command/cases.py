"""The cases. A case is a folder of cases/: `args` (one argument to a line), `stdin` if it reads any, `env` if it sets anything
(NAME=VALUE), and what it has to give: `stdout`, `stderr` (an absent file: nothing), `status`, and `written`, the content of the
file that the argument @written means (an absent file: nothing was written). In `stderr` the line @usage is the usage that
the help of the subcommand begins with. `output` says where standard output goes if it is not read: to a terminal (and then
`stdout` is what appears there), to a closed pipe, or to a file."""
import os
import pty
import subprocess
import tempfile
import tty

from command import HERE, run, usage
from folders import content
from tally import chosen


def environment(case):
    lines = (content(case, "env") or b"").decode().splitlines()
    return dict(line.split("=", 1) for line in lines)


def on_terminal(arguments, **more):
    """What a run writes to a terminal, and the run."""
    ours, theirs = pty.openpty()
    tty.setraw(theirs)
    done = run(arguments, stdout=theirs, stderr=subprocess.PIPE, **more)
    os.close(theirs)
    shown = b""
    try:
        while part := os.read(ours, 4096):
            shown += part
    except OSError:
        pass  # the terminal has no other end any more
    os.close(ours)
    return shown, done


def to_closed_pipe(arguments, **more):
    ours, theirs = os.pipe()
    os.close(ours)
    done = run(arguments, stdout=theirs, stderr=subprocess.PIPE, **more)
    os.close(theirs)
    return b"", done


def to_file(file, arguments, **more):
    with open(file, "wb") as output:
        return b"", run(arguments, stdout=output, stderr=subprocess.PIPE, **more)


def outcome(case, arguments):
    output = (content(case, "output") or b"").decode().strip()
    more = {"folder": case, "environment": environment(case), "input": content(case, "stdin") or b""}
    if output == "terminal":
        shown, done = on_terminal(arguments, **more)
    elif output == "closed pipe":
        shown, done = to_closed_pipe(arguments, **more)
    elif output:
        shown, done = to_file(output, arguments, **more)
    else:
        done = run(arguments, capture_output=True, **more)
        shown = done.stdout
    return shown, done.stderr, done.returncode


def checks():
    for name in sorted(os.listdir(os.path.join(HERE, "cases"))):
        if not chosen(name, "cases"):
            continue
        case = os.path.join(HERE, "cases", name)
        with tempfile.TemporaryDirectory() as folder:
            written = os.path.join(folder, "written")
            words = content(case, "args").split(b"\n")[:-1]
            arguments = [written.encode() if word == b"@written" else word for word in words]
            got = outcome(case, arguments) + (content(written),)
        errors = (content(case, "stderr") or b"").replace(b"@usage\n", usage(words[0].decode() if words else ""))
        wanted = (content(case, "stdout") or b"", errors, int(content(case, "status")))
        yield "case %s" % name, got, wanted + (content(case, "written"),)
