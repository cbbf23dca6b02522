"""docs/PROMISES.md against the crates: what the page counts or lists is made here, and the rest of it is checked.

    python3 tests/documents/promises.py --write      writes what is made into the page

Made, in place: the last two columns of the table of promises; the lists of wrong programs, from the first line of each must-fail edit; the
functions that assume something; lines, sums and what is passed over in the reading list; the declared types; the totals. Which files the
page lists, and in which order, is said by the page alone.
"""
import difflib
import os
import re
import sys

from definitions import assuming, functions, load, of_kit, paths, reach, unread_imports, used, words_of
from sessions import ROOT, read

PROMISES = "docs/PROMISES.md"
MAIN = "crates/theorems/specs/Main.antt"
RULES_OUT = "rules out: "
MARKED = re.compile(r"(<!-- ([a-z ]+?)(?:: ([^>]*?))? -->\n)(.*?)(<!-- end -->)", re.S)
CODE = re.compile(r"`([^`]+)`")


def short(path):
    """crates/text/specs/Bytes.antt as text/Bytes."""
    return re.sub(r"^crates/(\w+)/specs/(\w+)\.antt$", r"\1/\2", path)


def cells(line):
    """The cells of a line of a table; `\\|` is no border."""
    return [cell.strip() for cell in re.split(r"(?<!\\)\|", line)[1:-1]] if line.startswith("| ") else []


def marked(text, name):
    """The lines of the tables in the part of the page that has this name, without their heads."""
    parts = [body for _, key, _, body, _ in MARKED.findall(text) if key == name]
    return [line for body in parts for line in body.split("\n") if line.startswith("| ")][1:]


class Edits:
    """The must-fail edits: their crates, what they rule out, and whether their texts are found."""

    def __init__(self):
        self.paths = paths("crates/*/must-fail/*.edit")
        self.crates = sorted({path.split("/")[1] for path in self.paths})

    @staticmethod
    def name(path):
        return "%s/%s" % (path.split("/")[1], os.path.basename(path)[: -len(".edit")])

    def unsaid(self):
        return [self.name(path) for path in self.paths if not read(path).startswith(RULES_OUT)]

    def listed(self, crates):
        """The list of wrong programs of some crates, in the order of their names."""
        lines = []
        for path in self.paths:
            if path.split("/")[1] in crates:
                text = read(path)
                where = "" if re.search(r"^file: src/", text, re.M) else ", specs"
                said = text.split("\n")[0][len(RULES_OUT):] if text.startswith(RULES_OUT) else "?"
                lines.append("- %s (`%s`%s)" % (said, self.name(path), where))
        return "".join(line + "\n" for line in lines)

    def misplaced(self):
        """Edits of a text that its file does not have exactly once: said here in no time, by the gate at its end."""
        found = []
        for path in self.paths:
            crate, content = os.path.dirname(os.path.dirname(path)), ""
            parts = re.split(r"^(file|old|new): ?", read(path), flags=re.M)[1:]
            for key, text in zip(parts[::2], parts[1::2]):
                if key == "file":
                    file = os.path.join(crate, text.strip())
                    content = read(file) if os.path.exists(os.path.join(ROOT, file)) else ""
                elif key == "old" and content.count(text.rstrip("\n")) != 1:
                    found.append(self.name(path))
        return sorted(set(found))


class Types:
    """The types that Rattle declares and that definitions are written over."""

    def __init__(self):
        self.lines = {}

    def add(self, path, name):
        """A type of a file, and the types in its declaration."""
        if not os.path.exists(os.path.join(ROOT, path)) or (path, name) in self.lines:
            return
        text = read(path)
        found = re.search(r"^((?:// .*\n)*)(?:#\[.*\]\n)*pub (?:enum|struct) %s\b(?:[^{;]*;|[^}]*\n\})" % re.escape(name), text, re.M)
        if not found:
            return
        self.lines[path, name] = found.group().count("\n") + 1
        for other in set(re.findall(r"\b[A-Z]\w*", re.sub(r"//.*", "", found.group()))) - {name}:
            if re.search(r"^pub (?:enum|struct) %s\b" % other, text, re.M):
                self.add(path, other)
            for used_path in re.findall(r"^use (\w[\w:]*)::(?:%s|\{[^}]*\b%s\b[^}]*\});" % (other, other), text, re.M):
                crate, *modules = used_path.split("::")
                crate = path.split("/")[1] if crate == "crate" else crate
                self.add("crates/%s/src/%s.rt" % (crate, "/".join(modules) or "lib"), other)

    def add_module(self, module):
        """The type of a module such as Rattle.token.specs.declared.scan.Scan."""
        found = re.match(r"Rattle\.(\w+)\.specs\.declared\.((?:[a-z]\w*\.)*)([A-Z]\w*)", module)
        if found:
            crate, modules, name = found.groups()
            self.add("crates/%s/src/%s.rt" % (crate, modules.strip(".").replace(".", "/") or "lib"), name)


class Page:
    """The page with all that is known of the crates."""

    def __init__(self, text):
        self.text = text
        self.edits = Edits()
        self.files = load()
        if MAIN not in self.files:
            raise SystemExit("the page of theorems, %s, is not there" % MAIN)
        self.functions = {function.name: function for function in functions()}
        self.exported = {name.split("::")[-1]: function for name, function in self.functions.items() if function.exported}
        self.theorems = {d.names[0]: d for d in self.files[MAIN].definitions}
        self.listed = re.findall(r"^\| \d+ \| (crates/\S+\.antt) \|", text, re.M)
        self.between = [cells(line)[0] for line in marked(text, "between layers")]
        self.examples = [cells(line)[0] for line in marked(text, "examples")]
        self.devices, self.unknown = set(), []
        for line in marked(text, "devices"):
            names, path = cells(line)[:2]
            known = self.files[path].names if path in self.files else {}
            chosen = list(known) if names == "all" else CODE.findall(names)
            self.devices |= {(path, name) for name in chosen}
            self.unknown += [(path, name) for name in chosen if name not in known] or ([] if known else [(path, names)])
        main = self.files[MAIN]
        roots = [(theorem.words, main.imports) for theorem in self.theorems.values()]
        roots += [(words_of(" ".join(f.ensures)), f.file) for f in list(self.exported.values()) + self.promised_functions()]
        self.reached = reach(self.files, roots, self.devices)
        uses = [(d.words, self.files[d.path].imports) for d in self.reached.values()] + roots
        modules = {(imports[name][0], imports[name][1]) for words, imports in uses for name in used(words, imports)}
        self.kit = sorted({name for module, name in modules if of_kit(module)})
        self.types = Types()
        for module, _ in sorted(modules):
            self.types.add_module(module)

    def promise_rows(self):
        return [cells(line) for line in marked(self.text, "promises")]

    def promised(self):
        """The names in the second column of the table of promises."""
        return [name for row in self.promise_rows() for name in CODE.findall(row[1])]

    def promised_functions(self):
        return [self.functions[name] for name in self.promised() if name in self.functions]

    # What is made, part by part.

    def made_promises(self, body):
        lines = body.split("\n")
        for i, line in enumerate(lines):
            row = cells(line)
            names = CODE.findall(row[1]) if len(row) == 4 else []
            found, stated = [], []
            for name in names:
                if name in self.theorems:
                    words, imports, path = self.theorems[name].words, self.files[MAIN].imports, MAIN
                elif name in self.exported or name in self.functions:
                    function = self.exported.get(name) or self.functions[name]
                    words, imports, path = words_of(" ".join(function.ensures)), function.file, function.path
                else:
                    continue
                stated.append(short(path) if path != MAIN else "Main")
                found += [imports[n][2] for n in used(words, imports) if imports[n][2] in self.listed]
            if stated:
                read_here = [short(path) for path in self.listed if path in found and path not in self.constants()]
                lines[i] = "| %s | %s | %s | %s |" % (row[0], row[1], ", ".join(dict.fromkeys(stated)), ", ".join(read_here))
        return "\n".join(lines)

    def constants(self):
        return [cells(line)[1] for line in marked(self.text, "constants")]

    def passed_over(self, path):
        """The definitions of a listed file that no promise reaches."""
        if path == MAIN or path not in self.files:
            return []
        return [d for d in self.files[path].definitions if (path, d.names) not in self.reached]

    def lines_of(self, path):
        passed = sum(d.lines for d in self.passed_over(path))
        return self.files[path].text.count("\n") - passed if path in self.files else 0

    def made_reading(self, body):
        lines, number, total = body.split("\n"), 0, 0
        for i, line in enumerate(lines):
            row = cells(line)
            if len(row) >= 5 and row[1].startswith("crates/"):
                number, total = number + 1, total + self.lines_of(row[1])
                passed = ", ".join("`%s`" % d.names[0] for d in self.passed_over(row[1])) or "-"
                lines[i] = "| %d | %s | %d | %d | %s | %s |" % (number, row[1], self.lines_of(row[1]), total, row[4], passed)
        return "\n".join(lines)

    def made_assumptions(self, public):
        lines = ["| function | assumes |", "|---|---|"]
        for name, function in sorted(self.functions.items()):
            if function.requires and function.public == public:
                lines.append("| `%s` | %s |" % (name, "; ".join("`%s`" % clause for clause in function.requires)))
        return "".join(line + "\n" for line in lines)

    def made_types(self):
        lines = ["| type | declared in | lines |", "|---|---|---|"]
        lines += ["| `%s` | %s | %d |" % (name, path, count) for (path, name), count in sorted(self.types.lines.items())]
        return "".join(line + "\n" for line in lines)

    def made_totals(self):
        constants = self.constants()
        reading = [path for path in self.listed if path not in constants]
        imports = sum(len(re.findall(r"^use ", self.files[path].text, re.M)) for path in reading if path in self.files)
        # each definition that is passed over counts with the blank line after it
        blank = sum(len(re.findall(r"^$", self.files[path].text.rstrip("\n"), re.M)) - len(self.passed_over(path)) for path in reading if path in self.files)
        lines = sum(map(self.lines_of, reading))
        counted = lines, len(reading), imports, blank, lines - imports - blank
        besides = sum(map(self.lines_of, constants)), sum(self.types.lines.values())
        together = "Together %d lines in %d files: %d are imports, %d are blank, %d say something; " % counted
        return together + "besides these %d lines of constants and %d lines of declared types.\n" % besides

    def made(self):
        """The page as it has to be."""
        def part(match):
            start, key, argument, body, end = match.groups()
            if key == "promises":
                body = self.made_promises(body)
            elif key == "wrong programs":
                body = self.edits.listed(argument.split())
            elif key == "assumptions":
                body = self.made_assumptions(argument == "public")
            elif key in ("reading", "constants"):
                body = self.made_reading(body)
            elif key == "declared types":
                body = self.made_types()
            elif key == "totals":
                body = self.made_totals()
            return start + body + end
        return MARKED.sub(part, self.text)

    # What is checked. Every check is a list of what is wrong.

    def wrong(self):
        made = self.made()
        difference = [line for line in difflib.ndiff(self.text.split("\n"), made.split("\n")) if line[0] in "+-"]
        yield "lines that `python3 tests/documents/promises.py --write` changes", difference[:12]
        names = self.promised()
        yield "theorems that the table does not have", sorted(set(self.theorems) - set(names))
        yield "exported calls that the table does not have", sorted(set(self.exported) - set(names))
        known = set(self.theorems) | set(self.exported) | set(self.functions)
        yield "names in the table that are neither theorem nor function", sorted(set(names) - known)
        yield "exported calls that assume something", sorted(name for name, function in self.exported.items() if function.requires)
        yield "imports that the test cannot read", [line for file in self.files.values() for line in unread_imports(file.text)]
        known = sum(len(function.requires) for function in self.functions.values())
        yield "assumptions that the search for functions missed", [] if known == assuming() else ["%d of %d found" % (known, assuming())]
        lists = [crate for _, key, argument, _, _ in MARKED.findall(self.text) if key == "wrong programs" for crate in argument.split()]
        yield "crates whose edits are in no list", sorted(set(self.edits.crates) - set(lists))
        yield "crates of a list that have no edits", sorted(set(lists) - set(self.edits.crates))
        yield "crates in two lists", sorted({crate for crate in lists if lists.count(crate) > 1})
        yield "edits whose first line does not say what they rule out", self.edits.unsaid()
        yield "edits of texts that are not there", self.edits.misplaced()
        reached = {path for path, _ in self.reached}
        yield "files that a promise reaches and the reading list does not have", sorted(reached - set(self.listed))
        yield "files of the reading list that no promise reaches", sorted(set(self.listed) - reached - {MAIN})
        lists = self.listed + self.between + self.examples
        yield "files of definitions in no list", sorted(set(self.files) - set(lists))
        yield "files in two lists", sorted({path for path in lists if lists.count(path) > 1})
        named = set(re.findall(r"crates/[\w./*-]*\w", self.text))
        yield "files that the page names and that are not there", sorted(path for path in named if not paths(path))
        yield "definitions passed over for a theorem that are not there", self.unknown
        explained = {name.replace("\\|", "|") for line in marked(self.text, "kit") for name in CODE.findall(cells(line)[0])}
        yield "names of the kit that the page does not explain", sorted(set(self.kit) - explained)


def checks():
    """Each fact with what is wrong and what may be."""
    for what, wrong in Page(read(PROMISES)).wrong():
        yield what, wrong, []


if __name__ == "__main__":
    sys.path.insert(0, os.path.join(ROOT, "tests"))
    if sys.argv[1:] == ["--write"]:
        content = Page(read(PROMISES)).made()
        with open(os.path.join(ROOT, PROMISES), "w", encoding="utf-8") as file:
            file.write(content)
    failures = [(what, got) for what, got, _ in checks() if got]
    for what, got in failures:
        print("%s: %s" % (what, "\n    ".join([""] + [str(one) for one in got])))
    sys.exit(1 if failures else 0)
