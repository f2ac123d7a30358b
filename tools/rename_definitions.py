#!/usr/bin/env python3
"""Brings the names of this repository's definitions and lemmas to snake case, by the table names.tsv beside this file.

usage: python3 tools/rename_definitions.py     at the top of the repository, once, after the kit's port.py

A row of the table is an old name, a tab and the new name. Whole names alone are turned: in .antt files everywhere, in .rt files in their
ghost parts and comments, in planted edits everywhere, in pages inside backticks. Names of functions and texts of the programs stay.
"""
import os
import re

HERE = os.path.dirname(os.path.abspath(__file__))
with open(os.path.join(HERE, "names.tsv"), encoding="utf-8") as table:
    NAMES = dict(line.rstrip("\n").split("\t") for line in table)
OLD = re.compile(r"(?<![\w'·-])(" + "|".join(re.escape(n) for n in sorted(NAMES, key=len, reverse=True)) + r")(?![\w'·-])")
SPAN = re.compile(r"`[^`\n]*`")


def turned(text):
    return OLD.sub(lambda m: NAMES[m.group(1)], text)


def turned_code(text):
    """Strings of the program stay as they are."""
    parts = re.split(r'("(?:[^"\\\n]|\\.)*")', text)
    return "".join(p if i % 2 else turned(p) for i, p in enumerate(parts))


def turn(path):
    with open(path, encoding="utf-8") as f:
        old = f.read()
    if path.endswith(".md"):
        new = SPAN.sub(lambda m: turned(m.group(0)), old)
    elif path.endswith(".rt"):
        new = turned_code(old)
    else:
        new = turned(old)
    if new != old:
        with open(path, "w", encoding="utf-8") as f:
            f.write(new)
    return new != old


def paths():
    for top in ("crates", "docs", "tests"):
        for folder, dirs, files in os.walk(top):
            dirs[:] = sorted(d for d in dirs if d not in ("out", "data"))
            for name in sorted(files):
                if name.endswith((".antt", ".rt", ".edit", ".md")) or top == "tests" and name.endswith(".txt"):
                    yield os.path.join(folder, name)
    yield "README.md"


print(sum(turn(p) for p in paths()), "files turned")
