#!/usr/bin/env python3
"""Lists the places of the design pass, as docs/DESIGN-PASS.md counts them.

usage: python3 tools/design_places.py FOLDER [POINT ..]     FOLDER is a checkout of any commit

Each line is: the point, file:line, the function or type, and a few words. Places that no pattern sees are named by hand in
design_places.tsv beside this file (point, group, file, name, words; a point with `-` is what a pattern finds and is no place);
those that the folder no longer has are listed as gone. At the end stands how many there are.
"""
import collections
import os
import re
import sys

HERE = os.path.dirname(os.path.abspath(__file__))
ROOT = sys.argv[1]
POINTS = sys.argv[2:] or list("12345678")
CRATES = os.path.join(ROOT, "crates")
HEAD = re.compile(r"^\s*(?:pub(?:\(crate\))? )?(fn|struct|enum|trait|const) (\w+)")
CLAUSE = re.compile(r"^\s*(requires|ensures)(?: \w+)? \{ (.*) \};?$")
LOOP = re.compile(r"^\s*(while .*|for .+ in .*(?:\.\.|enumerate\(\)).*) \{$")


def sources():
    for folder, dirs, files in sorted(os.walk(CRATES)):
        if f"{os.sep}src" in folder:
            for name in sorted(files):
                if name.endswith(".rt"):
                    path = os.path.join(folder, name)
                    with open(path, encoding="utf-8") as f:
                        yield os.path.relpath(path, CRATES), f.read().split("\n")


def is_code(line):
    return not line.lstrip().startswith(("//", "ghost ", "requires", "ensures"))


def items(lines):
    """Each line of a file, with the function or type that it stands in."""
    name = ""
    for i, line in enumerate(lines):
        m = HEAD.match(line)
        if m:
            name = m.group(2)
        yield i, line, name


def functions(lines):
    """Each function of a file: its name, line, parameters and clauses."""
    i = 0
    while i < len(lines):
        m = HEAD.match(lines[i])
        if m and m.group(1) == "fn":
            line, sig, clauses = i + 1, "", []
            while i < len(lines):
                c = CLAUSE.match(lines[i])
                if c:
                    clauses.append(c.groups())
                elif clauses or lines[i].strip() == "{":
                    break
                else:
                    sig += lines[i] + " "
                    if lines[i].endswith(("{", ";")):
                        break
                i += 1
            yield m.group(2), line, parameters(sig), clauses
        i += 1


def parameters(sig):
    sig = re.sub(r"^.*?fn \w+(?:<[^(]*>)?", "", sig)
    depth, found, part = 0, [], ""
    for ch in sig:
        depth += (ch in "(<[") - (ch in ")>]")
        if depth == 0:
            break
        if ch == "," and depth == 1:
            found, part = found + [part], ""
        elif not (ch == "(" and depth == 1):
            part += ch
    return [re.sub(r"^mut ", "", p.split(":")[0].strip()) for p in found + [part] if p.strip()]


def show(point, where, name, words):
    if point in POINTS:
        print(f"{point}  {where}  {name}: {words}")


ALL = dict(sources())
COUNTS = collections.OrderedDict()


def count(key, n=1):
    COUNTS[key] = COUNTS.get(key, 0) + n


# by hand
ROWS = []
with open(os.path.join(HERE, "design_places.tsv"), encoding="utf-8") as f:
    for row in f:
        if row.strip() and not row.startswith("#"):
            ROWS.append(row.rstrip("\n").split("\t"))
groups = collections.defaultdict(set)
for point, group, path, name, words in ROWS:
    if point.endswith("-"):
        continue
    at = next((i + 1 for i, line in enumerate(ALL.get(path, []))
               if (m := HEAD.match(line)) and m.group(2) == name), None)
    if at is None:
        show(point, path, name, f"gone ({words})")
        count(f"{point} gone")
        continue
    show(point, f"{path}:{at}", name, f"[{group}] {words}" if group != "-" else words)
    count(f"{point} named by hand")
    groups[point].add(group)
COUNTS["2 families of twins named by hand"] = len(groups["2"])
COUNTS["5 topics named by hand"] = len(groups["5"])

known = {(r[0].rstrip("-"), r[2], r[3]) for r in ROWS}


def named(point, path, line, name):
    """Says it where a pattern finds what is not named by hand."""
    if (point, path, name) not in known:
        show(point, f"{path}:{line}", name, "not named in design_places.tsv")
        count(f"{point} found and not named")


# 3: loops that count
for path, lines in ALL.items():
    for i, line, name in items(lines):
        if is_code(line) and LOOP.match(line):
            count("3 loops that the pattern finds")
            named("3", path, i + 1, name)

# 2: limits written as numbers
LIMITS = [("1023", "nodes of a score"), ("170", "primitives of a score"), ("16_777_215", "ticks"), ("16_384", "bytes of a file"),
          ("1024", "items of a draft"), ("4096", "cells of a grid"), ("65_535", "ticks of a primitive or cell"), ("8", "places of a rack")]
for number, words in LIMITS:
    for path, lines in ALL.items():
        if path.startswith("limits/") and number != "8184":
            continue
        for i, line, name in items(lines):
            text = re.sub(r'"(?:[^"\\]|\\.)*"', '""', line)
            if is_code(line) and re.search(rf"(?<![\w.]){number}(?![\w])", text) and (number != "8" or ".min(8)" in text or "; 8]" in text):
                show("2", f"{path}:{i + 1}", name, f"limit {number} ({words}): {line.strip()}")
                count("2 limits written as numbers")
                count(f"2 limit {number}")

# 5: facts that stand in three or more contracts, and parameters that travel together
TOGETHER = [("row", "spans"), ("target", "to"), ("out", "to"), ("nodes", "from", "count"), ("rule", "way", "split"),
            ("spans", "scratch"), ("rack", "rt"), ("row", "ticks", "count"), ("list", "other"), ("first", "second", "to")]
facts, together = collections.defaultdict(list), collections.defaultdict(list)
for path, lines in ALL.items():
    for name, line, names, clauses in functions(lines):
        for group in TOGETHER:
            if set(group) <= set(names):
                together[group].append(f"{path}:{line} {name}")
        for kind, text in clauses:
            if kind == "ensures" and text.startswith("Wrote "):
                text = "Wrote .."
            if "length_of " in text and ".length_of" not in text:
                text = text.replace("length_of ", "length ")
            for p in names:
                if not p.startswith("&"):
                    text = re.sub(rf"(?<![\w.]){re.escape(p)}(?!\w)", "_", text)
            text = re.sub(r"(?<![\w.])self(?!\w)", "_", text)
            facts[(kind, re.sub(r"\.(now|old)\b", "", text))].append(f"{path}:{line} {name}")
for (kind, text), where in sorted(facts.items(), key=lambda x: -len(x[1])):
    if len(set(where)) >= 3:
        count("5 facts in three or more contracts")
        count("5 clauses that say them", len(where))
        show("5", f"{len(where)} clauses in {len(set(where))} functions of {len({w.split('/')[0] for w in where})} crates", kind, text)
        for w in where if "5" in sys.argv[2:] else []:
            show("5", "    " + w.split()[0], w.split()[1], "")
for group, where in together.items():
    if len(where) >= 3:
        count("5 groups of parameters in three or more functions")
        show("5", f"{len(where)} functions of {len({w.split('/')[0] for w in where})} crates", "parameters", ", ".join(group))
        for w in where if "5" in sys.argv[2:] else []:
            show("5", "    " + w.split()[0], w.split()[1], "")

# 6: arrays of fixed room that are lists, and what is returned as an end or a count
for path, lines in ALL.items():
    for i, line, name in items(lines):
        if is_code(line) and re.search(r"\[[\w:]+(?:::<\w+>)?(?: \{)?; \w+\]|\}; \w+\]|\]; 0\]|\[\w+(?:\(\d\))?; [\d_]+\]|Rest\(0\); \d+\]", line):
            show("6", f"{path}:{i + 1}", name, f"array: {line.strip()}")
            count("6 arrays of fixed room")
            named("6", path, i + 1, name)
    for name, line, names, clauses in functions(lines):
        if {"target", "out", "buffer"} & set(names) and any("Wrote " in t or "take result" in t for k, t in clauses if k == "ensures"):
            show("6", f"{path}:{line}", name, "writes into a list and returns its end or count")
            count("6 functions that return the end of a list they write")
            named("6", path, line, name)
        if any(set(g) <= set(names) for g in TOGETHER[:4]):
            count("6 functions of a list with a table, an end or an offset and count beside it")
            named("6", path, line, name)

# 8: proofs
if "8" in POINTS:
    total = [0] * 5
    print("8  crate | files | lines | files of answers | answers | other statements (about)")
    for crate in sorted(os.listdir(CRATES)):
        row = [0] * 5
        for folder, _, files in os.walk(os.path.join(CRATES, crate, "proofs")):
            for name in files:
                if name.endswith(".antt"):
                    with open(os.path.join(folder, name), encoding="utf-8") as f:
                        text = f.read()
                    answers = len(re.findall(r"^pub \S+ : goal\.", text, re.M))
                    row[0] += 1
                    row[1] += text.count("\n")
                    row[2] += name == "Answers.antt"
                    row[3] += answers
                    row[4] += len(re.findall(r"^\s*(?:pub )?[\w'·-]+ : (?!goal\.)", text, re.M))
        if any(row):
            print("8  " + " | ".join([crate] + [str(n) for n in row]))
            total = [a + b for a, b in zip(total, row)]
    print("8  " + " | ".join(["all"] + [str(n) for n in total]))

print()
for key, n in COUNTS.items():
    if key[0] in POINTS:
        print(f"{key}: {n}")
