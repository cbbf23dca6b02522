"""The definitions in crates/*/specs, the functions in crates/*/src with their contracts, and which definitions a text reaches by name.

What is reached is never too little, as far as names go: a word that is the name of a definition counts as a use of it.
"""
import collections
import glob
import os
import re

from sessions import ROOT, read

# The definitions of one paragraph of a file: the names that it declares, its lines (one of them blank), the words in it.
Definition = collections.namedtuple("Definition", "path names lines words")
# A file of definitions: what its imports call (module, name, path of the file or None), its definitions, and these by name.
File = collections.namedtuple("File", "path text imports definitions names")
# A function: path in the language (crate::module::name, of a method crate::module::Type::name), file, whether it is public and whether C calls it, its contract.
Function = collections.namedtuple("Function", "name path public exported requires ensures file")

WORD = re.compile(r"[^\s(){};,.]+")
IMPORT = re.compile(r"^(?:pub |ghost )?use (\S+?)\.\{(.*)\};?$", re.M)
DECLARED = re.compile(r"\s*(?:unfoldable |abbrev )?(?:pub )?(?:(?:record|data) (\S+)|(\S+) :)")
# a function with a contract: the brace of its body stands on a line of its own, as far in as its name
HEADER = re.compile(r'^( *)(pub )?(extern "C" )?fn (\w+)((?:[^\n]*(?<!\{)\n)+?)\1\{$', re.M)
CLAUSE = re.compile(r"^ +(requires|ensures) (?:\w+ )?\{ (.*) \}$", re.M)
TYPE = re.compile(r"^impl(?:<[^>]*>)? (?:[\w<>]+ for )?(\w+)", re.M)


def paths(pattern):
    return sorted(os.path.relpath(path, ROOT) for path in glob.glob(os.path.join(ROOT, pattern), recursive=True))


def path_of(module):
    """The file of a module of definitions, or None for one of the kit, of a proof or of a type that Rattle declares."""
    found = re.fullmatch(r"Rattle\.(\w+)\.specs\.(\w+)", module)
    return "crates/%s/specs/%s.antt" % found.groups() if found and not of_kit(module) else None


def of_kit(module):
    """Whether a module is one of the kit's, and not of a crate of this repository."""
    found = re.match(r"Rattle\.(\w+)", module)
    return not (found and os.path.isdir(os.path.join(ROOT, "crates", found[1])))


def words_of(text):
    """The words of a text; of `x.field` both."""
    return set(WORD.findall(text))


def imports_of(text):
    imports = {}
    for module, names in IMPORT.findall(text):
        for name in names.split(", "):
            original, _, local = name.partition(" as ")
            imports[local or original] = (module, original, path_of(module))
    return imports


def unread_imports(text):
    """Imports that are not in one line, or that name nothing."""
    return [line for line in text.split("\n") if re.match(r"(pub |ghost )?use ", line) and not IMPORT.match(line)]


def load_file(path):
    text = read(path)
    definitions, names = [], {}
    for paragraph in re.split(r"\n\s*\n", text.rstrip("\n")):
        lines = [line for line in paragraph.split("\n") if not IMPORT.match(line)]
        code = [line for line in lines if not line.strip().startswith("--")]
        declared = [a or b for a, b in (match.groups() for match in map(DECLARED.match, code) if match)]
        if declared:
            definition = Definition(path, tuple(declared), len(lines) + 1, words_of("\n".join(code)))
            definitions.append(definition)
            for name in declared:
                names.setdefault(name, definition)
    return File(path, text, imports_of(text), definitions, names)


def load():
    """All files of definitions by path."""
    return {path: load_file(path) for path in paths("crates/*/specs/*.antt") if not path.endswith("/Lib.antt")}


def used(words, names):
    """Which of some names the words use; of an operator such as `◌then◌` the middle is the word."""
    for name in names:
        parts = [part for part in name.split("◌") if part]
        if name in words or ("◌" in name and parts and all(part in words for part in parts)):
            yield name


def reach(files, roots, devices):
    """The definitions that roots (words with the imports that they are read by) reach, not going through devices (path and name)."""
    reached, waiting = {}, [(imports[name][2], imports[name][1]) for words, imports in roots for name in used(words, imports)]
    while waiting:
        path, name = waiting.pop()
        if path not in files or name not in files[path].names or (path, name) in devices:
            continue
        file, definition = files[path], files[path].names[name]
        if (path, definition.names) in reached:
            continue
        reached[path, definition.names] = definition
        waiting += [(path, other) for other in used(definition.words, file.names)]
        waiting += [(file.imports[other][2], file.imports[other][1]) for other in used(definition.words, file.imports)]
    return reached


def assuming():
    """How many functions assume something, by a search for the word alone."""
    return sum(len(re.findall(r"^\s*requires\b", read(path), re.M)) for path in paths("crates/*/src/**/*.rt"))


def functions():
    """All functions, with the clauses of their contracts."""
    for path in paths("crates/*/src/**/*.rt"):
        text = read(path)
        crate, modules = path.split("/")[1], path[: -len(".rt")].split("/")[3:]
        for found in HEADER.finditer(text):
            indent, public, exported, name, rest = found.groups()
            clauses = CLAUSE.findall(rest)
            # a method is named after its type
            of_type = TYPE.findall(text[: found.start()])[-1:] if indent else []
            yield Function(
                "::".join([crate] + [module for module in modules if module != "lib"] + of_type + [name]),
                path,
                bool(public),
                bool(exported),
                [clause for kind, clause in clauses if kind == "requires"],
                [clause for kind, clause in clauses if kind == "ensures"],
                imports_of(text),
            )
