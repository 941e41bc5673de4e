#!/usr/bin/env python3
"""Tries the must-fail edits that the gate has no time for.

Each is a wrong body, written as those in crates/NAME/must-fail, and stands in tests/must-fail/NAME. The tree is copied,
these edits take the place of the gate's, and `rt ci` proves the crates and tries them; what it has proved on this machine
before it takes over. Its lines are printed as they come, and the prover has to refuse every edit.

    tests/must_fail.py [--fit] [NAME ..]

With no name it is all crates that have such edits. With --fit nothing is proved: it says in a second whether each edit
still stands in its file, once.
"""
import os
import shutil
import subprocess
import sys
import tempfile

HERE = os.path.dirname(os.path.abspath(__file__))
TOP = os.path.dirname(HERE)
EDITS = os.path.join(HERE, "must-fail")


def edits_of(crate):
    folder = os.path.join(EDITS, crate)
    return [os.path.join(folder, name) for name in sorted(os.listdir(folder))]


def misfit(crate, edit):
    """Why the edit can't be made, or None."""
    path, old, texts = None, None, {}
    with open(edit, encoding="utf-8") as lines:
        for line in lines.read().split("\n"):
            if line.startswith("file: "):
                path = os.path.join(TOP, "crates", crate, line[len("file: ") :].strip())
                if not os.path.isfile(path):
                    return f"there is no {path}"
                if path not in texts:
                    with open(path, encoding="utf-8") as file:
                        texts[path] = file.read()
            elif line.startswith("old: "):
                old = line[len("old: ") :]
            elif line.startswith("new:"):
                found = texts[path].count(old)
                if found != 1:
                    return f"{found} places have: {old.strip()}"
                texts[path] = texts[path].replace(old, line[len("new: ") :])
    return None


def fit(crates):
    misfits = 0
    for crate in crates:
        for edit in edits_of(crate):
            why = misfit(crate, edit)
            if why:
                misfits += 1
                print(f"{os.path.relpath(edit, TOP)}: {why}")
    print(f"{sum(len(edits_of(crate)) for crate in crates)} edits, {misfits} don't fit")
    return 1 if misfits else 0


def tried(crates):
    with tempfile.TemporaryDirectory(prefix="must-fail-") as room:
        shutil.copytree(os.path.join(TOP, "crates"), os.path.join(room, "crates"), ignore=shutil.ignore_patterns("out", "must-fail"))
        for name in ("crates.txt", "HANDLES"):
            shutil.copyfile(os.path.join(TOP, name), os.path.join(room, name))
        for crate in crates:
            shutil.copytree(os.path.join(EDITS, crate), os.path.join(room, "crates", crate, "must-fail"))
        return subprocess.run(["rt", "ci", *crates], cwd=room, check=False).returncode


def main():
    words = sys.argv[1:]
    names = [word for word in words if word != "--fit"]
    known = sorted(os.listdir(EDITS))
    for name in names:
        if name not in known:
            sys.exit(f"{name} has no edits in tests/must-fail: {', '.join(known)}")
    crates = names or known
    sys.exit(fit(crates) if "--fit" in words else tried(crates))


main()
