#!/usr/bin/env python3
"""Makes the table of edge cases that the program `edges` is run on: crates/edges/data/.

    python3 tests/edges.py            writes the files and the list `cases`
    python3 tests/edges.py --check    writes nothing, and fails where the folder is not what would be written

A line of `cases` is `FILE KEEP KIND ANSWER`, with single spaces: the first KEEP bytes of FILE (`-` for all) are loaded
at place 0 of an empty rack of one place for primitives of KIND. ANSWER is `ok LENGTH NODES PRIMS` or
`refused NUMBER PART DETAIL`. A line that begins with # is a comment.
"""

import os
import sys

sys.dont_write_bytecode = True
from edge_rules import MOST_BYTES, agrees  # noqa: E402
from edge_table import ASKED, CASES, FILES, GROUPS  # noqa: E402

FOLDER = os.path.join(os.path.dirname(os.path.abspath(__file__)), "..", "crates", "edges", "data")


def made():
    """The files of the folder, by their names."""
    for group in GROUPS:
        group()
    for text, _, _ in ASKED:
        if len(text) <= MOST_BYTES and not agrees(text):
            sys.exit(f"the two readings of the grammar differ on {text[:120]!r}")
    return {**FILES, "cases": ("\n".join(CASES) + "\n").encode()}


def found():
    return {name: open(os.path.join(FOLDER, name), "rb").read() for name in os.listdir(FOLDER)}


def write(files):
    os.makedirs(FOLDER, exist_ok=True)
    for name in set(os.listdir(FOLDER)) - set(files):
        os.remove(os.path.join(FOLDER, name))
    for name, text in files.items():
        with open(os.path.join(FOLDER, name), "wb") as file:
            file.write(text)


def main(words):
    files = made()
    total = sum(len(text) for text in files.values())
    if len(files) >= 600 or total >= 2_000_000:
        sys.exit(f"too much: {len(files)} files, {total} bytes")
    if words == []:
        write(files)
    elif words != ["--check"]:
        sys.exit(__doc__)
    elif found() != files:
        sys.exit("crates/edges/data is not what tests/edges.py writes")
    print(f"{len(ASKED)} cases, {len(files)} files, {total} bytes")


main(sys.argv[1:])
