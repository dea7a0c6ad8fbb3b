#!/usr/bin/env python3
"""Gives the repository's own definitions and lemmas today's spelling: lists of words in snake case, as `partsAround` to `parts_around`.

usage: tools/respell.py        at the top of the repository, once, after the toolchain's port.py

Every name is turned in specs/, proofs/, the clauses of src/ and the must-fail edits; in the documents only names that crates/ declares. A part of a name that begins with a capital is a type's or a module's and stays. The fields of records of specs/ have no dash either: `gain-is` to `gain_is`.
"""

import os
import re

NAME = re.compile(r"[\w'-]+")
HUMP = re.compile(r"([a-z0-9])([A-Z]+)")
WHOLE = {"ruleOf": "RuleOf"}  # a definition that gives a fact is spelled as a type


def part(word):
    return HUMP.sub(lambda m: m.group(1) + "_" + m.group(2).lower(), word) if word[:1].islower() else word


def turn(text, only=None, dashed=()):
    def one(m):
        name = m.group(0)
        if name in WHOLE:
            return WHOLE[name]
        if name in dashed:
            return name.replace("-", "_")
        new = "-".join(part(p) for p in name.split("-"))
        return name if only is not None and name not in only else new

    return NAME.sub(one, text)


def files(*ends):
    for folder, dirs, names in os.walk("crates"):
        dirs[:] = sorted(d for d in dirs if d != "out")
        for name in sorted(names):
            if name.endswith(ends):
                yield os.path.join(folder, name)


def rewrite(path, turned):
    with open(path, encoding="utf-8") as f:
        text = f.read()
    new = turned(text)
    if new != text:
        with open(path, "w", encoding="utf-8") as f:
            f.write(new)


def fields():
    """The fields of the records of specs/ that have a dash: a field is spelled as Rust would."""
    found = set()
    for path in files(".antt"):
        if "/specs/" in path:
            with open(path, encoding="utf-8") as f:
                found |= set(re.findall(r"^ +pub ([\w'-]*-[\w'-]*) :", f.read(), re.M))
    return found


def main():
    dashed = fields()
    declared = set(dashed)
    for path in files(".antt"):
        with open(path, encoding="utf-8") as f:
            declared |= {n for n in NAME.findall(f.read()) if HUMP.search(n) and n[0].islower()}
    for path in files(".antt", ".rt"):
        rewrite(path, lambda text: turn(text, None, dashed))
    for path in files(".edit"):
        rewrite(path, lambda text: turn(text, declared, dashed))
    documents = ["README.md", "CONTRIBUTING.md"] + [os.path.join(d, n) for d, _, ns in os.walk("docs") for n in ns if n.endswith(".md") and n != "PORT.md"]
    for path in documents:
        rewrite(path, lambda text: turn(text, declared, dashed))


main()
