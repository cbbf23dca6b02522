"""Asks the command about every description file of a folder, in both editions: run.py [--expected REPORT] FOLDER [OPTION].., the options
being those of `korzhinay select` without --edition. Each file is accepted or refused, with the line and the meaning; a file of which the
editions say different things has a line for each. A crash, a run without an end, any other exit status, an answer that has not one mark
for each line, and a file that the new edition accepts and the old one answers otherwise are failures; so is, with --expected, a line that
is not in that report. The last line says how many files passed and failed; a folder without any, and one that is not there, is a failure
too."""
import collections
import os
import re
import subprocess
import sys

HERE = os.path.dirname(os.path.abspath(__file__))
COMMAND = os.path.join(HERE, "..", "..", "target", "korzhinay")
ENDINGS = (".dsc", ".fdf", ".dsc.inc", ".fdf.inc")
# the longest accepted file takes a few milliseconds
SECONDS = 10
# what is said of a refusal of standard input, by which a file is handed over: no path can be taken for an answer; its line may follow
REFUSAL = re.compile(r"-:(\d+):\d+: refused \((\d+)\): (.*)\n")
# the refusals of a whole file, which are shown at its start
WHOLE = {"14", "15"}
EDITIONS = ("old", "new")
# the refusals of the new edition that the old one need not have: of a bare word, and of `$(NAME)` after !ifdef
OF_NEW = re.compile(r"refused \((3|22)\)")
# a line of a report; a path may have words of an answer in it, an answer not
REPORTED = re.compile(r"(.*): (?:accepted,|refused \(\d+\)).*")


def description_files(folder):
    """The files, by their paths from the folder on."""
    paths = [os.path.join(place, name) for place, _, names in os.walk(folder) for name in names]
    return sorted(os.path.relpath(path, folder) for path in paths if path.lower().endswith(ENDINGS))


def accepted(content, marks):
    """What is said of a file that is accepted; None where the marks are not those of its lines."""
    lines = content.count(b"\n") + (not content.endswith(b"\n") and content != b"")
    if not re.fullmatch(rb"([0-6]\n){%d}" % lines, marks):
        return None
    return "accepted, %d lines kept of %d" % (marks.count(b"1") + marks.count(b"6"), lines)


def refused(message):
    """What is said of a file that is refused; None where the message is not that of a refusal, or of something else than the file."""
    match = REFUSAL.match(message)
    if not match:
        return None
    line, number, meaning = match.groups()
    return "refused (%s)%s: %s" % (number, "" if number in WHOLE else " at line " + line, meaning)


def answer(content, edition, options):
    """What the command says of a file, the marks that it prints, and whether that is an answer at all."""
    words = [COMMAND, "select", "--quiet", "--marks", "--edition", edition, *options, "-"]
    try:
        run = subprocess.run(words, input=content, capture_output=True, timeout=SECONDS)
    except subprocess.TimeoutExpired:
        return "FAILED, no end after %d seconds" % SECONDS, b"", False
    message = run.stderr.decode(errors="backslashreplace")
    said = None
    if run.returncode == 0 and not message:
        said = accepted(content, run.stdout)
    elif run.returncode == 1 and not run.stdout:
        said = refused(message)
    return said or "FAILED, exit status %d: %s" % (run.returncode, message.strip()), run.stdout, said is not None


def both(path, options):
    """What is said of a file in the old edition and in the new one, and whether these can be their answers: whatever the new one does not
    refuse with a number of its own, the old one answers alike."""
    with open(path, "rb") as file:
        content = file.read()
    (old, old_marks, old_good), (new, new_marks, new_good) = (answer(content, edition, options) for edition in EDITIONS)
    if old_good and new_good and (old, old_marks) != (new, new_marks) and not OF_NEW.match(new):
        return ("FAILED, the old edition does not answer as the new one: " + old, new), False
    return (old, new), old_good and new_good


def lines_of(path, answers):
    """The lines of the report on a file: one, or one for each edition if they differ."""
    if len(set(answers)) == 1:
        return ["%s: %s" % (path, answers[0])]
    return ["%s: %s, in the %s edition" % (path, said, edition) for said, edition in zip(answers, EDITIONS)]


def summary(answers):
    """How many files met with which answer."""
    counts = collections.Counter(re.match(r"accepted|refused \(\d+\)|", said).group() or "failed" for said in answers)
    in_order = sorted(counts, key=lambda what: (len(what), what))
    return ", ".join("%d %s" % (counts[what], what) for what in in_order)


def unexpected(expected, report):
    """The files of which something else was said than the expected report says."""
    wanted = collections.defaultdict(list)
    with open(expected, encoding="utf-8") as file:
        for line in file:
            line = line.rstrip("\n")
            wanted[REPORTED.fullmatch(line)[1]].append(line)
    said = {path: lines_of(path, answers) for path, answers in report.items()}
    return {path for path in wanted.keys() | said.keys() if wanted.get(path) != said.get(path)}


def main(arguments):
    expected = None
    if arguments[:1] == ["--expected"]:
        expected, arguments = arguments[1], arguments[2:]
    if not arguments:
        sys.exit(__doc__)
    folder, options = arguments[0], arguments[1:]
    if not os.path.isdir(folder):
        sys.exit("%s: there is no such folder" % folder)
    report, wrong = {}, set()
    for path in description_files(folder):
        report[path], good = both(os.path.join(folder, path), options)
        print("\n".join(lines_of(path, report[path])))
        if not good:
            wrong.add(path)
    if expected:
        for path in sorted(unexpected(expected, report)):
            wrong.add(path)
            print("FAILED %s: not what the expected report says" % path)
    for place, edition in enumerate(EDITIONS):
        print("%d files, %s edition: %s" % (len(report), edition, summary(answers[place] for answers in report.values())))
    print("%d passed, %d failed" % (len(report.keys() - wrong), len(wrong)))
    return 1 if wrong or not report else 0


# a file may have any bytes in its name
sys.stdout.reconfigure(errors="backslashreplace")
sys.exit(main(sys.argv[1:]))
