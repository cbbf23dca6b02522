"""The command, asked as the manual's tables tell."""
import os
import re
import subprocess

from sessions import ROOT

COMMAND = os.path.join(ROOT, "target", "korzhinay")
REFUSAL = re.compile(rb"(?:<expression>|-):\d+:\d+: refused \((\d+)\): ")


def ask(*words, given=b""):
    """What the command prints, as bytes, or the number with which it refuses; any other ending as a text, which nothing equals that is
    wanted."""
    done = subprocess.run([COMMAND, *words], input=given, capture_output=True, timeout=60)
    refusal = REFUSAL.match(done.stderr)
    if done.returncode == 1 and refusal:
        return int(refusal[1])
    return done.stdout if done.returncode == 0 else "exit status %d: %r" % (done.returncode, done.stderr)


def marks(file, *settings):
    """The marks of a file's lines as a text of digits, or the refusal."""
    answer = ask("select", "--marks", *settings, "-", given=file.encode())
    return answer.decode().replace("\n", "") if isinstance(answer, bytes) else answer
