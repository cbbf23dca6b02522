#!/usr/bin/env python3
"""Gives the repository's own definitions and lemmas the spelling of today's Rattle: words in snake case, constants in capitals with `_`.

usage: tools/respell.py [--check]       at the top of the repository, once, after port.py of the kit
       tools/respell.py --others        only the names that files give to imported words by `as`

A name turns if a file of specs/ or proofs/ declares it, or binds it by `where`, a field or a constructor, and it has a dash or a capital
within and begins with a small letter, or has capitals and a dash. Types and modules keep their names, and so do functions of src/, the names
of goals, and what stands in quotes. In a comment a word with a dash turns only between backquotes. --check only lists what would turn, and
each file in which two names would fall together.
"""

import os
import re
import sys

WORD = re.compile(r'[^\s(){}.;,@"«»`]+')
DECLARED = re.compile(
    r"(?m)^ *((?:(?:abbrev|unfoldable|pub|data|record|ruleset|mutual) )*)([^\s(){}.;,@\"«»]+)(?: \{[^{}\n]*\}| \((?:[^()\n]|\([^()\n]*\))*\))* :(?=\s)"
)
# Names that a proof gets from the check, as goals and steps of the code: they keep their spelling, which the code decides.
MADE = re.compile(r"(?:tie|goal)\.")
SKIPPED = ("out", "target", ".git", "__pycache__")
# Lemmas that would be spelled like a definition that they speak of, and a field that would be spelled like the test in its type.
APART = {
    name: respelled + "_lem"
    for name, respelled in (
        ("after-word", "after_word"),
        ("and-digits", "and_digits"),
        ("or_digits", "or_digits"),
        ("xor-digits", "xor_digits"),
        ("binary-value", "binary_value"),
        ("both_values", "both_values"),
        ("choice-value", "choice_value"),
        ("clash-in", "clash_in"),
        ("expression-of", "expression_of"),
        ("first-arm", "first_arm"),
        ("in-line", "in_line"),
        ("is-less", "is_less"),
        ("is-unary", "is_unary"),
        ("macro-name", "macro_name"),
        ("name-length", "name_length"),
        ("of-answer", "of_answer"),
        ("plain-record", "plain_record"),
        ("token-in", "token_in"),
        ("unary-value", "unary_value"),
        ("word-start", "word_start"),
    )
} | {"well-formed": "is_well_formed"}
# Constructors that are declared several to a line, and an operator.
MORE = {name: name.replace("-", "_") for name in ("shift-left", "shift-right", "followed-by", "◌followed-by◌")}
# The same as above in these files alone; elsewhere the name is a constructor.
APART_IN = {
    "crates/blocks/proofs/%s.antt" % name: {"at-end": "at_end_lem"} for name in ("StrayLine", "Refused", "SelectionFaults")
}


def files(top, endings):
    for folder, inner, names in os.walk(top):
        inner[:] = sorted(d for d in inner if d not in SKIPPED)
        for name in sorted(names):
            if name.endswith(endings):
                yield os.path.join(folder, name)


def text_of(path):
    with open(path, encoding="utf-8") as file:
        return file.read()


def respelled(name):
    if not re.search(r"[a-z]", name):
        return name.replace("-", "_") if re.fullmatch(r"[A-Z][A-Z0-9-]*", name) else name
    if not re.match(r"[a-z_]", name):
        return name
    name = re.sub(r"(?<=[a-z0-9])-(?=[A-Za-z0-9])", "_", name)
    return re.sub(r"(?<=[a-z0-9])[A-Z]", lambda letter: "_" + letter[0].lower(), name)


def table():
    names, made = set(), set()
    for path in files("crates", (".antt",)):
        answers = os.path.basename(path) in ("Proof.antt", "Answers.antt", "Invariants.antt")
        text = text_of(path)
        for found in DECLARED.finditer(text):
            rest = text[found.end() : found.end() + 60]
            name = found[2]
            if answers and (MADE.search(rest) or name.endswith("-spec")):
                made.add(name)
            else:
                names.add(name)
    turned = {name: respelled(name) for name in names - made} | APART | MORE
    return {old: new for old, new in turned.items() if old != new}, made


def pieces(text, comment):
    """The text as pairs: whether it is code, and the piece."""
    pattern = re.compile(r'"(?:[^"\\\n]|\\.)*"|' + comment + r"[^\n]*")
    at = 0
    for found in pattern.finditer(text):
        if found.start() and comment == "--" and not re.match(r"[\s(){}.;,]", text[found.start() - 1]) and found[0][0] == "-":
            continue
        yield True, text[at : found.start()]
        yield False, found[0]
        at = found.end()
    yield True, text[at:]


def turn_words(text, names, walk=False):
    """Turns each word. In a proof that walks the code a word with a dash that stands behind a dot is a step of the code, and stays."""

    def turned(word):
        if walk and "-" in word[0] and text[word.start() - 1 : word.start()] == ".":
            return word[0]
        return names.get(word[0], word[0])

    return WORD.sub(turned, text)


def turn_comment(text, names):
    if text.startswith('"'):
        return text
    text = re.sub(r"`[^`\n]+`", lambda span: turn_words(span[0], names), text)
    camel = {old: new for old, new in names.items() if "-" not in old}
    return turn_words(text, camel)


def other_names(text):
    """The names that a file gives to imported words by `as`."""
    return {name: respelled(name) for name in re.findall(r" as ([a-z][\w-]*)(?=[,}])", text)}


def kit_names(text):
    """The names that a file has from the kit's libraries: they keep the kit's spelling."""
    there = set()
    for module, items in re.findall(r"(?m)^(?:ghost )?use ([^\s{]+)\.\{([^}]*)\}", text):
        if not os.path.isdir("crates/" + (module.split(".") + [""])[1]) or not module.startswith("Rattle."):
            there |= {item.strip().split(" as ")[0] for item in items.split(",")}
    return there


def turn(path, names):
    text = text_of(path)
    if path.endswith((".antt", ".rt")):
        kit = kit_names(text)
        names = {old: new for old, new in names.items() if old not in kit} | other_names(text)
    if path.endswith(".md"):
        return text, re.sub(r"`[^`\n]+`", lambda span: turn_words(span[0], names), text)
    if path.endswith(".edit"):
        lines = [turn_words(line, names) if line.startswith(("old:", "new:")) else line for line in text.split("\n")]
        return text, "\n".join(lines)
    names = names | APART_IN.get(path, {})
    if path.endswith(".rt"):
        names = {old: new for old, new in names.items() if "_" not in old}
    comment = "//" if path.endswith(".rt") else "--"
    walk = path.endswith("/Proof.antt")
    parts = [turn_words(part, names, walk) if code else turn_comment(part, names) for code, part in pieces(text, comment)]
    return text, "".join(parts)


def words(text):
    return {word for code, part in pieces(text, "--") if code for word in WORD.findall(part)}


def main():
    check = "--check" in sys.argv[1:]
    names, made = ({}, set()) if "--others" in sys.argv[1:] else table()
    together = {}
    for old, new in names.items():
        together.setdefault(new, set()).add(old)
    for new, olds in sorted(together.items()):
        if len(olds) > 1:
            print(f"two names: {', '.join(sorted(olds))} -> {new}")
    for path in files("crates", (".antt", ".rt")):
        there = words(text_of(path))
        for old in sorted(there & set(names)):
            if names[old] in there:
                print(f"meets: {path}: {old} -> {names[old]}")
    for path in files(".", (".antt", ".rt", ".edit", ".md")):
        if not path.startswith(("./crates/", "./docs/", "./README.md", "./CONTRIBUTING.md")):
            continue
        before, after = turn(path[2:], names)
        if before != after and not check:
            with open(path, "w", encoding="utf-8") as file:
                file.write(after)
    if check:
        for old, new in sorted(names.items()):
            print(f"{old}\t{new}" + ("\t(also a goal)" if old in made else ""))
    print(f"{len(names)} names")


if __name__ == "__main__":
    main()
