"""The completion for bash: what it offers at a place of a command line."""
import os
import re
import shutil
import subprocess
import tempfile

from command import DATUM_TYPES, FOUND, ROOT, SECONDS, SUBCOMMANDS, answer
from folders import fill
from manual import OPTION
from tally import chosen

FILE = os.path.join(ROOT, "target", "korzhinay.bash")
OF_THE_COMMAND = {"--help", "-h", "--version"}
# Reads the file and calls the function for a line and its words, the last of which is being typed; then prints what is offered.
SCRIPT = r"""
compopt() { :; }
source "$1" || exit
COMP_LINE=$2
shift 2
registered=$(complete -p korzhinay) || exit
[[ $registered =~ \ -F\ ([^ ]+) ]] || exit
COMP_WORDS=("$@")
COMP_CWORD=$(($# - 1))
COMP_POINT=${#COMP_LINE}
COMP_TYPE=9
COMP_KEY=9
COMPREPLY=()
"${BASH_REMATCH[1]}" korzhinay "${!#}" "${COMP_WORDS[COMP_CWORD - 1]}"
printf '%s\n' "$registered" "${COMPREPLY[@]}"
"""


def complete(*words, folder=ROOT):
    """What is offered for the last word, and how the completion is registered. A `=` is a word, as bash has it."""
    line = re.sub(" = ?", "=", " ".join(["korzhinay", *words]))
    command = ["bash", "--norc", "--noprofile", "-c", SCRIPT, "bash", FILE, line, "korzhinay", *words]
    more = {"stdin": subprocess.DEVNULL, "capture_output": True, "text": True, "timeout": SECONDS}
    done = subprocess.run(command, cwd=folder, env=FOUND, **more)
    registered, _, offered = done.stdout.partition("\n")
    return {line for line in offered.splitlines() if line}, registered


def options_of_help(*subcommand):
    """The options that a help lists, one or more at the start of a line."""
    lines = answer([*subcommand, "--help"])[0].decode().splitlines()
    return set(OPTION.findall("\n".join(line for line in lines if line.startswith("  "))))


def is_registered():
    """The file names a function for the command."""
    yield "a function is registered", complete("")[1], "complete -F _korzhinay korzhinay"


def subcommands():
    """The first word is a subcommand, or an option of the command itself."""
    yield "subcommands", complete("")[0], {*SUBCOMMANDS, "help", *OF_THE_COMMAND}
    for start in ("s", "t", "na", "help", "x"):
        yield "subcommands with %s" % start, complete(start)[0], {each for each in SUBCOMMANDS + ["help"] if each.startswith(start)}
    yield "options before a subcommand", complete("-")[0], OF_THE_COMMAND
    yield "subcommands after help", complete("help", "")[0], set(SUBCOMMANDS)
    yield "nothing after help of one", complete("help", "select", "")[0], set()


def options_of_subcommands():
    """Each subcommand has the options of its help and no others, before and after an operand."""
    for subcommand in SUBCOMMANDS:
        wanted = options_of_help(subcommand)
        yield "options of the help of %s" % subcommand, {"--json", "-h", "--help"} <= wanted, True
        for words in ([subcommand, "-"], [subcommand, "a.dsc", "-"], [subcommand, "--json", "-"]):
            yield "options after %s" % " ".join(words), complete(*words)[0], wanted
        long = {each for each in wanted if each.startswith("--")}
        yield "long options of %s" % subcommand, complete(subcommand, "--")[0], long
    yield "an option that is begun", complete("select", "--ann")[0], {"--annotate"}
    yield "an option of another subcommand", complete("eval", "--ann")[0], set()


def end_of_options():
    """After `--` there are no options; files are offered, those that begin with `-` too."""
    with tempfile.TemporaryDirectory() as folder:
        fill(folder, {"-lamp.dsc": b"", "--json.dsc": b"", "lamp.dsc": b""})
        for words, wanted in ((["select", "--", "-"], {"-lamp.dsc", "--json.dsc"}), (["names", "--", "--"], {"--json.dsc"}),
                              (["select", "-D", "A", "--", "lamp.dsc", "--j"], {"--json.dsc"}), (["select", "--", "-D", "l"], {"lamp.dsc"}),
                              (["eval", "--", "-"], set()), (["tokens", "--", "--"], set())):
            yield "after %s" % " ".join(words), complete(*words, folder=folder)[0], wanted


def datum_types():
    """The datum types follow --datum."""
    for words in (["--datum", ""], ["--json", "--datum", ""], ["--datum", "="]):
        yield "types after %s" % " ".join(words), complete("field", *words)[0], set(DATUM_TYPES)
    yield "a type that is begun", complete("field", "--datum", "UINT")[0], {each for each in DATUM_TYPES if each.startswith("UINT")}
    yield "a type that is begun after =", complete("field", "--datum", "=", "B")[0], {"BOOLEAN"}


def editions():
    """The editions follow --edition."""
    for subcommand in SUBCOMMANDS:
        offered = {"old", "new"} if subcommand != "table" else set()
        for words in (["--edition", ""], ["--json", "--edition", ""], ["--edition", "="]):
            got = complete(subcommand, *words)[0]
            yield "editions after %s %s" % (subcommand, " ".join(words)), got if offered else got & {"old", "new"}, offered
    yield "an edition that is begun", complete("select", "--edition", "n")[0], {"new"}
    yield "an edition that is begun after =", complete("tokens", "--edition", "=", "o")[0], {"old"}


def files():
    """Files follow the options that take one, and are operands; no expression is one."""
    with tempfile.TemporaryDirectory() as folder:
        fill(folder, {"buoy.settings": b"", "buoy.bin": b"", "lamp.dsc": b""})
        for words in (["select", "-s"], ["eval", "--settings"], ["names", "-t"], ["table", "--table"], ["select", "-o"],
                      ["table", "--output"], ["table"], ["select", "lamp.dsc"], ["select", "--quiet"], ["names", "--"]):
            yield "files after %s" % " ".join(words), complete(*words, "buoy.", folder=folder)[0], {"buoy.settings", "buoy.bin"}
        for words in (["eval"], ["tokens", "--json"], ["select", "-D"], ["names", "--undefine"]):
            yield "no files after %s" % " ".join(words), complete(*words, "buoy.", folder=folder)[0], set()
        yield "only files for a value", complete("select", "-s", "", folder=folder)[0], {"buoy.settings", "buoy.bin", "lamp.dsc"}


def lints():
    """shellcheck has nothing to say of the file."""
    if not shutil.which("shellcheck"):
        print("LEFT OUT shellcheck of the completion: it is not installed")
        return
    done = subprocess.run(["shellcheck", "--shell=bash", FILE], capture_output=True, text=True, timeout=SECONDS)
    yield "lints of the completion", (done.stdout, done.stderr, done.returncode), ("", "", 0)


def checks():
    for part in (is_registered, subcommands, options_of_subcommands, end_of_options, datum_types, editions, files, lints):
        if chosen("completion_" + part.__name__, "completion"):
            yield from part()
