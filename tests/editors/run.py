"""Opens what the command says of a refusal, or in a note, in Vim and in Emacs, with no settings but their defaults, and looks where they
are then: run.py [NAME]... A name is one of files.py, `a tab` or `messages`. An editor that is not installed is a failure; tests/packages
installs both. The last line says how many passed and how many failed."""
import os
import re
import subprocess
import sys
import tempfile

HERE = os.path.dirname(os.path.abspath(__file__))
# The tally is in the folder above.
sys.path.insert(0, os.path.join(HERE, ".."))
from files import FILES, NOTED, TAB
from tally import check, choose, chosen, end

ROOT = os.path.normpath(os.path.join(HERE, "..", ".."))
COMMAND = os.path.join(ROOT, "target", "korzhinay")
CASES = os.path.join(ROOT, "tests", "command", "cases")
SECONDS = 60
# The first line of a refusal, or a note.
PLACED = re.compile(rb"^\S.*:\d+:\d+: (?:refused \(\d+\)|note): ", re.M)

VIM = ["vim", "-es", "-N", "-u", "NONE", "-i", "NONE", "-S", os.path.join(HERE, "jump.vim")]
EMACS = ["emacs", "-Q", "--batch", "--load", os.path.join(HERE, "jump.el")]
# Emacs, with columns that count characters.
CHARACTERS = ["emacs", "-Q", "--batch", "--eval", "(setq compilation-error-screen-columns nil)", "--load", os.path.join(HERE, "jump.el")]


def jump(editor, folder, messages):
    """Where an editor is that was given these messages in this folder: file, line, column, and how many places it found."""
    with open(os.path.join(folder, "errors.txt"), "wb") as file:
        file.write(messages)
    environment = {**os.environ, "HOME": folder, "TERM": "dumb", "LC_ALL": "C.UTF-8"}
    try:
        subprocess.run(editor, cwd=folder, env=environment, stdin=subprocess.DEVNULL, capture_output=True, timeout=SECONDS)
        with open(os.path.join(folder, "place.txt"), encoding="utf-8") as file:
            name, *numbers = file.read().splitlines()
    except (OSError, subprocess.TimeoutExpired) as error:
        return str(error)
    return (name, *map(int, numbers))


def place(editor, file, status=1):
    """Where an editor is after the command has refused a file, or accepted it with a note."""
    with tempfile.TemporaryDirectory() as folder:
        path = os.path.join(folder, file.name)
        os.makedirs(os.path.dirname(path), exist_ok=True)
        with open(path, "wb") as output:
            output.write(file.content.encode())
        done = subprocess.run([COMMAND, "select", file.name], cwd=folder, capture_output=True, timeout=SECONDS)
        return jump(editor, folder, done.stderr) if done.returncode == status else "exit status %d" % done.returncode


def check_places():
    for name, file in FILES.items():
        if chosen(name):
            check("Vim at %s" % name, place(VIM, file), (file.name, file.line, file.column, 1))
            check("Emacs at %s" % name, place(EMACS, file), (file.name, file.line, file.emacs or file.column, 1))
    for name, file in NOTED.items():
        if chosen(name):
            for editor, program in ("Vim", VIM), ("Emacs", EMACS):
                check("%s at %s" % (editor, name), place(program, file, status=0), (file.name, file.line, file.column, 1))
    if chosen("a tab"):
        check("Vim after a tab", place(VIM, TAB), (TAB.name, TAB.line, TAB.column, 1))
        check("Emacs after a tab", place(EMACS, TAB), (TAB.name, TAB.line, TAB.emacs, 1))
        check("Emacs after a tab, by characters", place(CHARACTERS, TAB), (TAB.name, TAB.line, TAB.column, 1))


def messages():
    """What the command says in all of its cases with a refusal or a note."""
    paths = [os.path.join(CASES, name, "stderr") for name in sorted(os.listdir(CASES))]
    texts = [open(path, "rb").read() for path in paths if os.path.exists(path)]
    return [text for text in texts if PLACED.search(text)]


def check_messages():
    """In no message is a line of text, a caret or a hint taken for a place: there is one for each refusal and each note."""
    texts = messages()
    check("there are messages", len(texts) > 100, True)
    said = b"".join(texts)
    for name, editor in ("Vim", VIM), ("Emacs", EMACS):
        with tempfile.TemporaryDirectory() as folder:
            # The first place has to be one where the editor can be.
            first = b"board.dsc:1:1: refused (18): unknown directive\n"
            with open(os.path.join(folder, "board.dsc"), "wb") as file:
                file.write(b"!\n")
            wanted = ("board.dsc", 1, 1, 1 + len(PLACED.findall(said)))
            check("places that %s finds" % name, jump(editor, folder, first + said), wanted)


def main():
    choose(sys.argv[1:])
    check_places()
    if chosen("messages"):
        check_messages()
    end()


main()
