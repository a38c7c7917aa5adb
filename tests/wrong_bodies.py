#!/usr/bin/env python3
"""Tries the wrong bodies that the gate leaves out: each is an edit of a crate that the prover has to refuse.

    tests/wrong_bodies.py [CRATE ..]
    tests/wrong_bodies.py --look

They stand in tests/wrong_bodies, a folder for each crate, in the form of crates/*/must-fail, which the gate tries. Without a crate all
are tried. That takes hours, since each of these crates is proved once more before its first; name the crates that you have
changed. What `rt lib` or ./meteragg has proved below them is taken as it is.

With --look nothing is proved: it only looks that each text that an edit changes stands exactly once in its file.

It prints what `rt must-fail` says, or a line for each edit that changes nothing. The exit status is 0 where all were refused, or all have
their texts, and 1 elsewhere.
"""
import os
import shutil
import subprocess
import sys
import tempfile

TOP = os.path.join(os.path.dirname(os.path.abspath(__file__)), "..")
EDITS = os.path.join(TOP, "tests", "wrong_bodies")


def edits_of(crate):
    """The paths of a crate's edits."""
    folder = os.path.join(EDITS, crate)
    return [os.path.join(folder, name) for name in sorted(os.listdir(folder))]


def lost_texts(crate, edit):
    """The texts that the edit changes and that don't stand exactly once in their file, each looked for behind the changes above it."""
    lost, sources, path, old = [], {}, "", ""
    with open(edit) as lines:
        for line in lines.read().split("\n"):
            word, _, rest = line.partition(":")
            if word == "file":
                path = os.path.join(TOP, "crates", crate, rest.strip())
                if path not in sources:
                    with open(path) as file:
                        sources[path] = file.read()
            elif word == "old":
                old = rest[1:]
                if sources[path].count(old) != 1:
                    lost.append(old)
            elif word == "new":
                sources[path] = sources[path].replace(old, rest[1:])
    return lost


def look(crates):
    """Whether the texts of all edits are there."""
    is_well = True
    for crate in crates:
        for edit in edits_of(crate):
            for text in lost_texts(crate, edit):
                print(f"{os.path.relpath(edit, TOP)}: not exactly once in its file: {text}")
                is_well = False
    return is_well


def try_all(crates):
    """Whether the prover refuses all edits. They take the place of those of the gate in a copy of the sources and of what is proved."""
    # On the disk of the checkout, so that files can get a second name there.
    out = os.path.join(TOP, "crates", "meteragg", "out")
    os.makedirs(out, exist_ok=True)
    with tempfile.TemporaryDirectory(prefix="rooms.", dir=out) as room:
        leave_out = shutil.ignore_patterns("must-fail", "incremental*", "rooms.*")
        shutil.copytree(os.path.join(TOP, "crates"), os.path.join(room, "crates"), copy_function=os.link, ignore=leave_out)
        for file in ("crates.txt", "HANDLES"):
            shutil.copy(os.path.join(TOP, file), room)
        for crate in crates:
            shutil.copytree(os.path.join(EDITS, crate), os.path.join(room, "crates", crate, "must-fail"))
        return subprocess.run(["rt", "must-fail", *crates], cwd=room).returncode == 0


def main():
    words = sys.argv[1:]
    every = sorted(os.listdir(EDITS))
    if words == ["--look"]:
        return 0 if look(every) else 1
    unknown = [word for word in words if word not in every]
    if unknown:
        sys.exit(f"wrong_bodies.py: no wrong bodies of {' '.join(unknown)} are left to try by hand")
    crates = words or every
    return 0 if look(crates) and try_all(crates) else 1


if __name__ == "__main__":
    sys.exit(main())
