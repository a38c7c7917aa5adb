#!/usr/bin/env python3
"""Counts the definitions that the reader of a contract has to believe.

    docs/definition_lines.py CRATE.FILE.NAME ..

It starts at the named definitions, each in crates/CRATE/specs/FILE.antt, and follows every name in them that stands in the
same file, or that a `use` line brings from the specs/ of this repository. A definition has the lines of its text, without
blank lines, comments and `use` lines. Words of the standard library and of the ported crates end the way and aren't
counted, and neither are the structs and enums of Rust that a definition names.

One line is printed for each crate, and a last one for all: how many definitions, and how many lines.
"""
import collections
import os
import re
import sys

CRATES = os.path.join(os.path.dirname(os.path.abspath(__file__)), "..", "crates")
USE = re.compile(r"(?:pub )?use (\S+?)\.\{(.*)\}")
PASSED = re.compile(r"(?:pub )?use |infix|\s*--|\s*$")
HEAD = re.compile(r"((?:(?:abbrev|unfoldable|pub|record|data)\s+)*)([^\s:({]+)(?=.* : )")
CONSTRUCTORS = re.compile(r"\s+(?:pub )?([^\s:]+(?:\s+[^\s:]+)*)\s*:")


class Specs:
    """A file of definitions: the lines of each, what `use` lines bring, and the type of each constructor."""

    def __init__(self, path):
        self.lines, self.brought, self.made = {}, {}, {}
        name, is_data = None, False
        with open(path) as file:
            for line in file:
                text = line.rstrip("\n")
                if use := USE.match(text):
                    for word in use[2].split(","):
                        was, _, now = word.strip().partition(" as ")
                        self.brought[now or was] = (use[1], was)
                if PASSED.match(text):
                    continue
                if not text[0].isspace() and (head := HEAD.match(text)) and text.split()[0] not in self.lines:
                    name, is_data = head[2], "data" in head[1]
                elif is_data and (found := CONSTRUCTORS.match(text)):
                    self.made.update(dict.fromkeys(found[1].split(), name))
                self.lines.setdefault(name, []).append(re.sub(r"\s--\s.*$", "", text))


def read_all():
    specs = {}
    for crate in sorted(os.listdir(CRATES)):
        for folder, _, files in os.walk(os.path.join(CRATES, crate, "specs")):
            for file in files:
                path = os.path.join(folder, file)
                below = os.path.relpath(path, os.path.join(CRATES, crate, "specs"))
                if file.endswith(".antt") and below != "Lib.antt":
                    specs[f"Rattle.{crate}.specs." + below[:-5].replace(os.sep, ".")] = Specs(path)
    return specs


def home(specs, place, name):
    """Where a name of a file is defined, or None outside this repository."""
    file = specs.get(place)
    if file is None:
        above, _, data = place.rpartition(".")
        return (above, data) if above in specs and data in specs[above].lines else None
    if name in file.lines:
        return place, name
    if name in file.made:
        return place, file.made[name]
    return home(specs, *file.brought[name]) if name in file.brought else None


def names_in(file, name):
    text = " ".join(file.lines[name])
    words = {part for word in re.findall(r"[^\s(){}\[\];,|λ]+", text) for part in (word, word.split(".")[0])}
    signs = {word for word in file.brought if "◌" in word and f" {word.replace('◌', '')} " in text}
    return words | signs


def reached(specs, starts):
    seen, left = set(), list(starts)
    while left:
        at = left.pop()
        if at in seen:
            continue
        seen.add(at)
        place, name = at
        left += filter(None, (home(specs, place, word) for word in names_in(specs[place], name)))
    return seen


def main():
    specs = read_all()
    starts = []
    for word in sys.argv[1:]:
        crate, _, rest = word.partition(".")
        file, _, name = rest.rpartition(".")
        place = f"Rattle.{crate}.specs.{file}"
        if place not in specs or name not in specs[place].lines:
            sys.exit(f"{word} is no definition, such as command_texts.Runs.IsRunOf")
        starts.append((place, name))
    definitions, lines = collections.Counter(), collections.Counter()
    for place, name in reached(specs, starts):
        crate = place.split(".")[1]
        definitions[crate] += 1
        lines[crate] += len(specs[place].lines[name])
    for crate in sorted(definitions):
        print(f"{crate}: {definitions[crate]} definitions, {lines[crate]} lines")
    print(f"all: {definitions.total()} definitions, {lines.total()} lines")


if __name__ == "__main__":
    main()
