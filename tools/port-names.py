#!/usr/bin/env python3
"""Brings this repository's own camel-case words (definitions and lemmas) to snake case: types, modules and Rattle's code keep their names.

usage: python3 tools/port-names.py        at the top of the repository, once, after the kit's port.py
"""

import os
import re

DECLARED = re.compile(r"^\s*(?:(?:pattern|unfoldable|abbrev|pub|axiom)\s+)*([^\s:(){}=]+)\s*(?:\{[^}]*\}\s*)?:(?=\s)")
# a lemma that would have its function's name
LEMMAS = {"flash": {"entry_in": "entry_in_lem"}}


def files(endings):
    for folder, dirs, names in os.walk("crates"):
        dirs[:] = sorted(d for d in dirs if d != "out")
        for name in sorted(names):
            if name.endswith(endings):
                yield os.path.join(folder, name)


def snake(name):
    return re.sub(r"([a-z0-9])([A-Z])", lambda m: m.group(1) + "_" + m.group(2).lower(), name.replace("getD", "get_or"))


def respelled():
    declared = set()
    for path in files(".antt"):
        with open(path, encoding="utf-8") as f:
            for line in f:
                found = DECLARED.match(line)
                if found:
                    declared.add(found.group(1))
    return {n: snake(n) for n in declared if re.match("[a-z]", n) and re.search("[A-Z]", n)}


def turn(text, names):
    word = "|".join(re.escape(n) for n in sorted(names, key=len, reverse=True))
    return re.sub(r"(?<![\w'\-])(" + word + r")(?![\w'\-])", lambda m: names[m.group(1)], text)


def main():
    names = respelled()
    pages = [os.path.join("docs", p) for p in sorted(os.listdir("docs")) if p.endswith(".md")] + ["README.md"]
    for path in list(files((".antt", ".rt", ".edit"))) + pages:
        with open(path, encoding="utf-8") as f:
            old = f.read()
        own = LEMMAS.get(path.split(os.sep)[1] if path.startswith("crates") else "", {})
        new = turn(old, own) if own and path.endswith(".antt") else old
        new = turn(new, names)
        if new != old:
            with open(path, "w", encoding="utf-8") as f:
                f.write(new)
    print(f"port-names: {len(names)} words respelled")


main()
