"""The page of the examples has one row for each file, and the programs can be run."""
import os
import re

from shell import EXAMPLES

PAGE = "README.md"
PROGRAMS = {"annotations", "pre-commit"}


def checks():
    files = sorted(os.listdir(EXAMPLES))
    with open(os.path.join(EXAMPLES, PAGE), encoding="utf-8") as page:
        rows = re.findall(r"^\| \[(.*)\]\((.*)\) \| .+ \|$", page.read(), re.M)
    yield "rows of the page", rows, [(name, name) for name in files if name != PAGE]
    yield "programs", {name for name in files if os.access(os.path.join(EXAMPLES, name), os.X_OK)}, PROGRAMS
