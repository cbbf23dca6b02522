"""crates.txt against the crates themselves and against the picture in docs/ARCHITECTURE.md.

In crates.txt a line `## ROOM` heads a room, and each crate has two lines: `# NAME: purpose` and `NAME: dependencies`. The dependencies are
direct: those that the crate's text names. One that the text does not name, but that declares a type whose values the crate reaches, is
repeated after `# unnamed:` in the same line. In the picture a line has names of crates, each followed by two blanks or more, and then what
they are."""
import os
import re

from sources import ROOT, files, read

LIST, PAGE = "crates.txt", "docs/ARCHITECTURE.md"
LISTED = re.compile(r"(\w+)(?: staticlib)?:([^#]*)(?:# unnamed:(.*))?")


class Listed:
    """What crates.txt says of a crate."""

    def __init__(self, room, purpose, dependencies, unnamed):
        self.room, self.purpose, self.dependencies, self.unnamed = room, purpose, dependencies, unnamed


def listed():
    """The crates of crates.txt by name, in its order."""
    found, room, comment = {}, "", ""
    for line in read(LIST).splitlines():
        match = LISTED.fullmatch(line)
        if line.startswith("## "):
            room = line[3:].strip()
        elif match:
            name, dependencies, unnamed = match.groups()
            before = re.fullmatch(r"# (\w+): (.+)", comment)
            purpose = before[2] if before and before[1] == name else ""
            found[name] = Listed(room, purpose, dependencies.split(), (unnamed or "").split())
        comment = line
    return found


def roots(code):
    """The names at the front of a code file's paths; those that a `use` or `mod` of the file brings in are no crates."""
    code = re.sub(r"//.*", "", code)
    uses = re.findall(r"^ *(?:pub )?use (\w+)([^;]*);", code, re.M)
    brought = {name for _, rest in uses for name in re.findall(r"\w+", rest)} | set(re.findall(r"\bmod (\w+)", code))
    paths = re.sub(r"^ *(?:pub |ghost )?use [^;]*;", "", code, flags=re.M)
    return {root for root, _ in uses} | set(re.findall(r"(?<![:\w])(\w+)::(?!<)", paths)) - brought


def named(crate, crates):
    """The other crates that a crate's text names: as a path's root in code, as `Rattle.NAME` everywhere."""
    found = set()
    for part in "src", "specs", "proofs":
        for file in files(os.path.join("crates", crate, part), ".rt", ".antt"):
            text = read(file)
            found |= set(re.findall(r"Rattle\.(\w+)", text)) | (roots(text) if file.endswith(".rt") else set())
    return found & crates - {crate}


def picture():
    """The lines of the picture, from above, each as its crates' names: the first indented block of the page."""
    block = re.search(r"(?:^    .*\n)+", read(PAGE), re.M)[0]
    return [re.split(r" {2,}", line.strip())[:-1] for line in block.splitlines()]


def drawn_above(crates, lines):
    """Pairs of a crate and a dependency that is not drawn below it."""
    height = {name: place for place, names in enumerate(lines) for name in names}
    for crate, what in crates.items():
        for dependency in what.dependencies:
            if height.get(crate, 0) >= height.get(dependency, len(lines)):
                yield crate, dependency


def checks():
    crates = listed()
    yield "folders of crates", sorted(crates), sorted(os.listdir(os.path.join(ROOT, "crates")))
    yield "crates without a room", [name for name, what in crates.items() if not what.room], []
    yield "crates without a line of purpose", [name for name, what in crates.items() if not what.purpose], []
    order = list(crates)
    late = [(name, d) for name, what in crates.items() for d in what.dependencies if d not in order[: order.index(name)]]
    yield "dependencies that are not listed before", late, []
    for name, what in crates.items():
        met = named(name, set(crates))
        yield "dependencies of %s" % name, sorted(what.dependencies), sorted(met | set(what.unnamed))
        yield "dependencies of %s that its text names, listed as unnamed" % name, sorted(met & set(what.unnamed)), []
    lines = picture()
    yield "crates in the picture", sorted(name for names in lines for name in names), sorted(crates)
    yield "dependencies that are not drawn below", list(drawn_above(crates, lines)), []
