#!/usr/bin/env python3
"""Brings the definitions, lemmas, fields and constructors of this repository's .antt files to snake case, wherever they are named.

usage: tools/snake_case.py [FOLDER]      FOLDER is a repository, else the one that the script stands in

A name that a file of proofs/ or specs/ declares is turned if it is in camel case, or has a dash or a prime sign; types and modules keep theirs. A lemma
that would get the name of the definition that it speaks of ends in _lem. A field of a generated module, as tie.invariant-loop, keeps its name. Two names
that would fall together in an .antt file are told, and nothing is written; in an .rt file a definition may have the name of the function that it is for,
and what is told is a parameter with the name of a definition in its clauses.
"""
import os
import re
import sys

NAME = r"[A-Za-z][A-Za-z0-9_'\u2032\u2080-\u2089]*(?:-[A-Za-z0-9_'\u2032\u2080-\u2089]+)*"
TOKEN = re.compile(r"(?<![\w'\u2032\u2080-\u2089-])" + NAME + r"(?![\w'\u2032\u2080-\u2089-])")
DECLARED = re.compile(r"\s*(?:module _ .*where\s+)?(?:(?:abbrev|unfoldable|pub|constructor|data|record)\s+)*((?:" + NAME + r"\s+)*" + NAME + r")(?:\s+\{\u2113\})?\s*:(?!\S)")
GENERATED = ("tie.", "goal.")
FIELDS = {"in-flight": "is_in_flight", "tail-left": "tail_is_left", "and-then": "runs_and_then"}


def snake(name):
    if not re.match(r"[a-z]", name):
        return name
    parts = name.replace("\u2032", "'").split("-")
    turned = []
    for part in parts:
        part = re.sub(r"(?<=[a-z0-9])([A-Z]+)(?=[A-Z][a-z]|[0-9_]|$|')", lambda m: "_" + m.group(1).lower(), part)
        part = re.sub(r"(?<=[a-z0-9])([A-Z])", lambda m: "_" + m.group(1).lower(), part)
        turned.append(part)
    return "_".join(turned)


def files(root, *endings):
    for folder, dirs, names in os.walk(os.path.join(root, "crates")):
        dirs[:] = sorted(d for d in dirs if d != "out")
        for name in sorted(names):
            if name.endswith(endings):
                yield os.path.join(folder, name)


def read(path):
    with open(path, encoding="utf-8") as f:
        return f.read()


def spelled(root):
    """Each name that is turned, with what it becomes."""
    found, whole = set(), set()
    for path in files(root, ".antt"):
        text = read(path)
        whole.update(m.group() for m in TOKEN.finditer(text))
        for line in text.split("\n"):
            m = DECLARED.match(line)
            if m:
                found.update(m.group(1).split())
            for m in re.finditer(r"(?:record \{|;)\s*(" + NAME + r") [=:] ", line):
                found.add(m.group(1))
    words = {snake(name) for name in found if "-" not in name and snake(name) != name} | {name for name in found if snake(name) == name}
    lemmas = {name for name in found if "-" in name and snake(name) in words}
    camel = {snake(name): name for name in found if "-" not in name and snake(name) != name}
    names = {name: snake(name) for name in found if snake(name) != name}
    names.update({name: snake(name) + "_lem" for name in lemmas})
    names.update({name: name + "_lem" for name in camel if name in found})
    names.update({name: new for name, new in FIELDS.items() if name in names})
    taken = whole - set(names)
    return {name: new for name, new in names.items() if not (new.endswith("_lem") and new in taken)}


def turned(text, names):
    def one(m):
        name = m.group()
        before = text[: m.start()]
        if name not in names or before.endswith(GENERATED):
            return name
        if before.endswith(".") and names[name].endswith("_lem"):
            return name
        return names[name]

    return TOKEN.sub(one, text)


def together(path, text, names):
    by = {}
    for m in TOKEN.finditer(text):
        name = m.group()
        if text[: m.start()].endswith(("Rattle.", "proofs.", ".")) and name not in names:
            continue
        by.setdefault(names.get(name, name), set()).add(name)
    return [f"{path}: {', '.join(sorted(old))} all become {new}" for new, old in by.items() if len(old) > 1]


FN = re.compile(r"fn (\w+)(?:<[^>]*>)?\(([^)]*)\)(.*?)\n *\{\n", re.S)


def hidden(path, text, names):
    new = set(names.values())
    told = []
    for m in FN.finditer(turned(text, names)):
        params = set(re.findall(r"(\w+):", m.group(2)))
        clause = set(TOKEN.findall(m.group(3)))
        told += [f"{path}: {m.group(1)}: parameter {p}" for p in sorted(params & clause & new)]
    return told


def main():
    root = sys.argv[1] if len(sys.argv) > 1 else os.path.join(os.path.dirname(os.path.realpath(__file__)), "..")
    names = spelled(root)
    paths = list(files(root, ".antt", ".rt", ".edit"))
    clashes = []
    for path in paths:
        if path.endswith(".antt"):
            clashes += together(path, read(path), names)
        if path.endswith(".rt"):
            clashes += hidden(path, read(path), names)
    if clashes:
        print("\n".join(clashes))
        if "--anyway" not in sys.argv:
            raise SystemExit(1)
    ghost = {name: new for name, new in names.items() if re.search(r"[A-Z-]", name)}
    for path in paths:
        old = read(path)
        new = turned(old, names if path.endswith(".antt") else ghost)
        if new != old:
            with open(path, "w", encoding="utf-8") as f:
                f.write(new)
    print(f"{len(names)} names turned")


if __name__ == "__main__":
    main()
