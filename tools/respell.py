#!/usr/bin/env python3
"""Brings this repository's own definitions and lemmas to one spelling; run once, after the toolchain's port.py, at the top.

Words are in snake case, in the names of fields too: `verbText` is `verb_text`, `call-blames` is `call_blames`. In a
lemma's name a dash stays only between two names of functions, as in `length-rows`. Where two names would fall together,
the lemma's gets `_lem`. Goals keep the names that the check gives them, and so do Rust items, files and modules.

usage: python3 tools/respell.py          rewrites crates/**/*.antt, *.rt and *.edit
       python3 tools/respell.py --list   prints the names, old and new, and writes nothing
"""

import os
import re
import sys

# names of the library that lemmas here join by a dash to one of ours
OF_STD = {"length", "take", "drop", "map", "decimal"}

DEFINITION = re.compile(r"^( *)(?:(?:abbrev|unfoldable|pub)\s+)*([A-Za-z][\w'-]*)\s+:(.*)$", re.M)
CAMEL = re.compile(r"[a-z][a-z0-9]*(?:[A-Z][a-z0-9]*)+")
WORD = re.compile(r"[A-Za-z_][\w'-]*")


def files(endings):
    for folder, dirs, names in os.walk("crates"):
        dirs[:] = sorted(d for d in dirs if d != "out")
        for name in sorted(names):
            if name.endswith(endings):
                yield os.path.join(folder, name)


def read(path):
    with open(path, encoding="utf-8") as f:
        return f.read()


def defined():
    """The names of functions (of specs/) and of the rest: lemmas and fields, without the answers to goals."""
    functions, others = set(), set()
    for path in files((".antt",)):
        for m in DEFINITION.finditer(read(path)):
            if not m[3].strip().startswith("goal."):
                (functions if "/specs/" in path and not m[1] else others).add(m[2])
    return functions, others - functions


def snake(name):
    if CAMEL.fullmatch(name):
        return re.sub(r"(?<=[a-z0-9])([A-Z])", lambda m: "_" + m[1].lower(), name)
    return name


def lemma(name, functions):
    """A lemma's name: a dash stays where a function's name stands on each side."""
    parts = snake(name).split("-")
    text = parts[0]
    for before, part in zip(parts, parts[1:]):
        text += ("-" if before in functions and part in functions else "_") + part
    return text


def renamings():
    functions, others = defined()
    to = {name: snake(name) for name in functions}
    known = set(to.values()) | OF_STD
    for name in sorted(others, key=lambda n: (not CAMEL.fullmatch(n), n)):
        turned = lemma(name, known)
        to[name] = turned + "_lem" if turned in to.values() else turned
    if len(set(to.values())) != len(to):
        raise SystemExit("two names fall together")
    return {a: b for a, b in to.items() if a != b}


def main():
    to = renamings()
    if "--list" in sys.argv[1:]:
        print("\n".join(f"{a} {b}" for a, b in sorted(to.items())))
        return
    camel = {a: b for a, b in to.items() if CAMEL.fullmatch(a)}
    for path in files((".antt", ".rt", ".edit")):
        names = to if path.endswith(".antt") else camel
        old = read(path)
        new = WORD.sub(lambda m: names.get(m[0], m[0]), old)
        if new != old:
            with open(path, "w", encoding="utf-8") as f:
                f.write(new)


main()
