"""The installed command, its man page and its completion."""
import os
import shutil

from installation import VERSION, installed, left_out, read, run

# What renders a man page and says what is wrong with it; the first that is installed is taken.
RENDERERS = [
    ["man", "--warnings", "--encoding=UTF-8", "--local-file", "--troff-device=utf8", "--ditroff"],
    ["groff", "-man", "-Tutf8", "-ww", "-z"],
]


def check_page(page):
    """The page has the version, and nothing is said of it while it is rendered."""
    (title,) = [line for line in read(page).decode().splitlines() if line.startswith(".TH ")]
    yield "the version of the man page", '"korzhinay %s"' % VERSION in title, True
    renderers = [words for words in RENDERERS if shutil.which(words[0])]
    if renderers:
        _, errors, status = run(*renderers[0], page, LC_ALL="C.UTF-8", MANWIDTH="80")
        yield "the man page", (errors, status), ("", 0)
    else:
        left_out("the man page", "neither man nor groff is installed")


def checks():
    prefix = installed()
    program = os.path.join(prefix, "bin", "korzhinay")
    page = os.path.join(prefix, "share", "man", "man1", "korzhinay.1")
    completion = os.path.join(prefix, "share", "bash-completion", "completions", "korzhinay")
    yield "its version", run(program, "--version"), ("korzhinay %s\n" % VERSION, "", 0)
    yield "an expression", run(program, "eval", "1 + 2 * 3"), ("7\n", "", 0)
    yield from check_page(page)
    shown = run("bash", "-c", 'source "$1" && complete -p korzhinay', "bash", completion)
    yield "the completion", (shown[0].endswith(" korzhinay\n"), *shown[1:]), (True, "", 0)
