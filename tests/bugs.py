#!/usr/bin/env python3
"""Faults in the code must be turned away by the proofs.

tests/bugs/NAME.txt has the faults of the crate NAME. Each is planted, one at a time, in a copy of the repository in a
temporary folder, and checked there by `rt check`, which takes over what has not changed. Without a fault the copy has to
be proved, so that nothing else is the reason. Nothing is written outside the temporary folder.

    tests/bugs.py             all crates that have faults
    tests/bugs.py NAME..      some of them

The command in the variable RT is run in place of `rt`, where it is set.
"""

import os
import re
import shutil
import subprocess
import sys
import tempfile
import time
from pathlib import Path

ROOT = Path(__file__).resolve().parent.parent
RT = os.environ.get("RT", "rt")


class Fault:
    """A text of a file of the crate, and what is put in its place."""

    def __init__(self, label):
        self.label = label
        self.file = ""
        self.old = []
        self.new = []

    def planted(self, text):
        """The file's text with the fault in it; none where the old text does not stand there once."""
        old, new = "\n".join(self.old), "\n".join(self.new)
        if not old or text.count(old) != 1:
            return None
        return text.replace(old, new)


def faults_of(name):
    """The faults of a crate: a line that names each, then its lines `file:`, `old:` and `new:`, the last two as many as it takes."""
    faults = []
    for line in (ROOT / "tests" / "bugs" / f"{name}.txt").read_text().splitlines():
        if not line or line.startswith("#"):
            continue
        part = re.match(r"(file|old|new): ?(.*)", line)
        if part is None:
            faults.append(Fault(line))
        elif part[1] == "file":
            faults[-1].file = part[2]
        else:
            getattr(faults[-1], part[1]).append(part[2])
    return faults


def copied(room):
    """Copies what a check of a crate reads. The first check there begins with what checks of these crates kept on the machine."""
    shutil.copytree(ROOT / "crates", room / "crates", ignore=shutil.ignore_patterns("out"))
    shutil.copy(ROOT / "crates.txt", room)


def place(said):
    """The place of the first error in what a check said, and whether a proof file only names what is not there any more."""
    error = re.search(r"^(\S+?): error(.*(?:\n  .*)*)", said, re.M)
    first = error or re.search(r"^note: (\S+:\d+:\d+):", said, re.M)
    if first is None:
        return ""
    by_name = error is not None and re.search(r"\s(has no (field )?`|has no field|is not in scope)", error[2])
    return "first at " + first[1].removeprefix("./") + (", by a name" if by_name else "") + "; "


def checked(room, name):
    """Checks the crate: its verdict, and what the check said."""
    folder = room / "crates" / name
    done = subprocess.run([RT, "check"], cwd=folder, stdout=subprocess.PIPE, stderr=subprocess.STDOUT, text=True)
    if done.returncode == 0 and re.search(r"^logic=proved", done.stdout, re.M):
        return "proved", done.stdout
    if done.returncode == 1 and re.search(r"^logic=not-proved", done.stdout, re.M):
        return "refused", done.stdout
    return "unchecked", done.stdout


def tried(room, name, fault):
    """Plants a fault, checks the crate, and takes the fault back: what came of it."""
    file = room / "crates" / name / fault.file
    text = file.read_text() if file.is_file() else ""
    faulty = fault.planted(text)
    if faulty is None:
        return "BAD FAULT: its old text does not stand once in the file", ""
    file.write_text(faulty)
    began = time.monotonic()
    verdict, said = checked(room, name)
    file.write_text(text)
    took = f"{time.monotonic() - began:.0f} s"
    if verdict == "refused":
        return f"refused ({place(said)}{took})", said
    if verdict == "proved":
        return f"SURVIVED ({took})", said
    return "BAD FAULT: it did not reach the prover", said


def main(names):
    names = names or sorted(path.stem for path in (ROOT / "tests" / "bugs").glob("*.txt"))
    planted, survived = 0, []
    for name in names:
        with tempfile.TemporaryDirectory() as folder:
            room = Path(folder)
            copied(room)
            if checked(room, name)[0] != "proved":
                print(f"{name}: it is not proved without a fault")
                return 2
            for fault in faults_of(name):
                verdict, said = tried(room, name, fault)
                print(f"{name}: {fault.label}: {verdict}", flush=True)
                planted += 1
                if not verdict.startswith("refused"):
                    survived.append(f"{name}: {fault.label}")
                if verdict.startswith("BAD"):
                    print(said[:2000])
    print(f"{planted} planted, {len(survived)} survived")
    for label in survived:
        print(f"survived: {label}")
    return 1 if survived else 0


if __name__ == "__main__":
    sys.exit(main(sys.argv[1:]))
