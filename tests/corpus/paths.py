"""What run.py makes of folders and paths: a path that reads like an answer is told apart from the answer, and a missing folder is reported.
The last line says how many passed and how many failed."""
import os
import subprocess
import sys
import tempfile

HERE = os.path.dirname(os.path.abspath(__file__))
sys.path.insert(0, os.path.join(HERE, ".."))
from tally import check, end

# Files, and what is reported of each, of which the editions may say different things; a name may have any bytes but a slash, and the report
# shows them all on one line.
FILES = {
    b"a: refused (3): x/b.dsc": (b"!if 1/0\n", ["a: refused (3): x/b.dsc: refused (12) at line 1: zero divisor"]),
    b"b:7: accepted, 1: c.fdf": (b"x\n" * 4097, ["b:7: accepted, 1: c.fdf: refused (15): the file has more than 4,096 lines"]),
    b"c\x01\xff\xc3.dsc": (b"!\n", ["c\x01\\udcff\\udcc3.dsc: refused (18) at line 1: unknown directive"]),
    "d\u00e9: refused (4).dsc".encode(): (b"x\n", ["d\u00e9: refused (4).dsc: accepted, 1 lines kept of 1"]),
    b"e, in the new edition.dsc": (
        b"!if 'a' == a\n!endif\n",
        [
            "e, in the new edition.dsc: accepted, 0 lines kept of 2, in the old edition",
            "e, in the new edition.dsc: refused (3) at line 1: no token can be read at some byte, in the new edition",
        ],
    ),
}
# The edition, how many are accepted, and what else there is.
SUMMARIES = [("old", 2, ""), ("new", 1, ", 1 refused (3)")]


def report(*arguments):
    """The lines that a run prints, standard error below, and its status."""
    environment = dict(os.environ, PYTHONIOENCODING="utf-8")
    run = subprocess.run([sys.executable, os.path.join(HERE, "run.py"), *arguments], capture_output=True, env=environment, timeout=60)
    return (run.stdout + run.stderr).decode().split("\n")[:-1], run.returncode


with tempfile.TemporaryDirectory() as folder:
    for name, (content, _) in FILES.items():
        path = os.path.join(os.fsencode(folder), name)
        os.makedirs(os.path.dirname(path), exist_ok=True)
        with open(path, "wb") as file:
            file.write(content)
    lines, status = report(folder)
    reports = ["\n".join(said) for _, said in FILES.values()]
    check("paths that read like answers", (lines[:-3], lines[-1], status), ("\n".join(reports).split("\n"), "5 passed, 0 failed", 0))
    summaries = ["5 files, %s edition: %d accepted%s, 1 refused (12), 1 refused (15), 1 refused (18)" % each for each in SUMMARIES]
    check("how many of each", lines[-3:-1], summaries)

    # As an expected report they are read back, except for names that are not UTF-8.
    expected = os.path.join(folder, "expected.txt")
    os.remove(os.path.join(os.fsencode(folder), b"c\x01\xff\xc3.dsc"))
    all_but_one = [reports[0], reports[1], *reports[3:]]
    for before, after, passed in [
        ("", "", "4 passed, 0 failed"),
        ("(15)", "(14)", "3 passed, 1 failed"),
        (", in the old edition", "", "3 passed, 1 failed"),
        ("(3) at line 1", "(3) at line 2", "3 passed, 1 failed"),
        (FILES[b"e, in the new edition.dsc"][1][1] + "\n", "", "3 passed, 1 failed"),
    ]:
        with open(expected, "w", encoding="utf-8") as file:
            file.write("".join(each + "\n" for each in all_but_one).replace(before, after))
        check("an expected report with %r for %r" % (after, before), report("--expected", expected, folder)[0][-1], passed)

    table = os.path.join(folder, "bad.bin")
    with open(table, "wb") as file:
        file.write(b"x")
    check("a refused table is no answer on a file", report(folder, "-t", table)[0][-1], "0 passed, 4 failed")
    missing = os.path.join(folder, "missing")
    check("a folder that is missing", report(missing), (["%s: there is no such folder" % missing], 1))
    os.mkdir(missing)
    nothing = ["0 files, %s edition: " % edition for edition in ("old", "new")]
    check("a folder without files", report(missing), ([*nothing, "0 passed, 0 failed"], 1))
end()
