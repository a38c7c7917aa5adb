#!/usr/bin/env python3
"""Looks whether what the documents name is there: files, definitions, laws and crates.

    tests/documents.py

It prints a line for each name that leads nowhere:

- a link in a document, or a path of this repository;
- a name that the README's table of rules says is in a file, and isn't;
- a definition that docs/DEFINITIONS.md places in another file than the one that has it, and a law that its tables lack;
- a crate that the README's tables or the layers of docs/ARCHITECTURE.md lack, one that stands above a crate that it stands on, and a
  sentence of more than twenty words in these tables.

The exit status is 0 where nothing is printed, and 1 where something is.
"""
import glob
import os
import re
import sys

TOP = os.path.join(os.path.dirname(os.path.abspath(__file__)), "..")
MOST_WORDS = 20
# Names of what a run leaves in the checkout.
MADE = ("crates/meteragg/out/", ".ci/out/")


def read(path):
    with open(path) as file:
        return file.read()


def cells(line):
    return [cell.strip() for cell in line.split("|")[1:-1]]


def quoted(text, form=r"\w+"):
    return re.findall(f"`({form})`", text)


def has_word(path, word):
    return re.search(rf"\b{re.escape(word)}\b", read(path)) is not None


def defines(crate, file, name):
    """Whether specs/FILE.antt of the crate begins the definition of a name, or src/ of the crate declares a type of that name."""
    path = f"crates/{crate}/specs/{file}.antt"
    begins = rf"^\s*(?:(?:abbrev|unfoldable|pub|record|data)\s+)*{re.escape(name)}(?!\w)"
    if os.path.exists(path) and re.search(begins, read(path), re.M):
        return True
    declares = rf"pub (?:struct|enum) {re.escape(name)}\b"
    return any(re.search(declares, read(source)) for source in glob.glob(f"crates/{crate}/src/*.rt"))


def section(text, heading):
    """The lines from a heading to the next one of its height."""
    height = heading.split(" ")[0]
    rest = text.split(f"\n{heading}", 1)[1]
    return re.split(rf"\n{height} ", rest, maxsplit=1)[0].split("\n")


def crates_below():
    below = {}
    for line in read("crates.txt").splitlines():
        if line and not line.startswith("#"):
            name, _, rest = line.partition(":")
            below[name] = rest.split()
    return {name: [other for other in others if other in below] for name, others in below.items()}


def paths(document):
    """Links and paths that lead to no file."""
    text, folder = read(document), os.path.dirname(document)
    for target in re.findall(r"\]\(([^)#]+)\)", text):
        if "://" not in target and not os.path.exists(os.path.join(folder, target)):
            yield f"{document}: no file {target}"
    for target in re.findall(r"`((?:crates|docs|examples|tests|\.ci)/[\w./-]+)`", text):
        if not os.path.exists(target) and not target.startswith(MADE) and "NAME" not in target:
            yield f"{document}: no file {target}"


def rules(readme):
    """The README's table of rules: names before `in [File](path)`, and names that are links themselves."""
    for line in section(readme, "### From a rule to its file"):
        places = re.findall(r"((?:`[\w.]+`(?:, | and )?)+) in \[[^]]*\]\(([^)]+)\)", line)
        places += re.findall(r"\[([^]]*)\]\(([^)]+)\)", line)
        for names, path in places:
            for name in quoted(names, r"[\w.:]+"):
                word = re.split(r"[.:]", name)[-1]
                if word and not has_word(path, word) and os.path.basename(path).split(".")[0] != word:
                    yield f"README.md: {name} isn't in {path}"


def definitions(text, below):
    """The tables of definitions: each name is defined in one of the files of its row, in the crate of its section or its row."""
    here = []
    for line in text.split("\n## Rules that are said again")[0].splitlines():
        if not line.startswith("|"):
            named = [name for name in quoted(line) if name in below]
            here = named if line.startswith("#") or "(`" in line and named else here
            continue
        row = cells(line)
        if len(row) < 3 or row[0] in ("In words", "Of") or set(row[0]) == {"-"}:
            continue
        places, crate = [], None
        for word in quoted(row[2]):
            if word in below:
                crate = word
            else:
                places += [(name, word) for name in ([crate] if crate else here)]
        for name in quoted(row[1]):
            if not any(defines(crate, file, name) for crate, file in places):
                yield f"docs/DEFINITIONS.md: {name} isn't in {row[2]} of {', '.join(here)}"


def said_again(text):
    """The table of rules that are said again: `name` (`crate` `File`), and law `name` (`crate`)."""
    for line in section(text, "## Rules that are said again"):
        for names, crate, file in re.findall(r"((?:`\w+`(?:, | and )?)+) \(`(\w+)` `(\w+)`\)", line):
            for name in quoted(names):
                if not defines(crate, file, name):
                    yield f"docs/DEFINITIONS.md: {name} isn't in {file} of {crate}"
        for names, crate in re.findall(r"[Ll]aws? ((?:`\w+`(?:, | and )?)+) \(`(\w+)`\)", line):
            for name in quoted(names):
                if name not in laws_of(crate):
                    yield f"docs/DEFINITIONS.md: {crate} has no law {name}"


def laws_of(crate):
    sources = glob.glob(f"crates/{crate}/src/*laws.rt")
    return {name for source in sources for name in re.findall(r"^pub fn (\w+)\(\)", read(source), re.M)}


def laws(text, below):
    """Each law has its row, and each row its law; worked rows are named elsewhere on the page."""
    listed = "\n".join(section(text, "## The laws"))
    for crate in below:
        for name in sorted(laws_of(crate)):
            places = f"`{name}`" in listed, f"::{name}`" in text, f"`{name}." in text, f"law `{name}`" in text
            if not any(places):
                yield f"docs/DEFINITIONS.md: nothing names the law {name} of {crate}"


def crates(readme, architecture, below):
    """The README's two tables of crates, and the layers."""
    above = []
    for line in section(readme, "### Crate by crate"):
        row = cells(line)
        if not row or not row[0].strip("`") in below:
            continue
        name = row[0].strip("`")
        above.append(name)
        if len(row) == 4:
            yield from (f"README.md: {name} stands above {other}" for other in below[name] if other not in above)
        for sentence in row[1:3]:
            if len(sentence.split()) > MOST_WORDS and len(row) == 4:
                yield f"README.md: more than {MOST_WORDS} words: {sentence}"
    yield from (f"README.md: no row of {name}" for name in below if name not in above)
    layer = {}
    for number, line in enumerate(architecture.split("\n## ")[0].splitlines()):
        if line.startswith("|"):
            layer.update({name: number for name in quoted(line)})
    for name, others in below.items():
        if name not in layer:
            yield f"docs/ARCHITECTURE.md: no layer of {name}"
        lower = (other for other in others if layer.get(other, 0) > layer.get(name, 0))
        yield from (f"docs/ARCHITECTURE.md: {name} is in a layer above {other}" for other in lower)


def main():
    os.chdir(TOP)
    below = crates_below()
    readme, architecture, text = (read(path) for path in ("README.md", "docs/ARCHITECTURE.md", "docs/DEFINITIONS.md"))
    said = [line for document in sorted(glob.glob("*.md") + glob.glob("docs/*.md")) for line in paths(document)]
    said += [*rules(readme), *definitions(text, below), *said_again(text), *laws(text, below), *crates(readme, architecture, below)]
    for line in said:
        print(line)
    sys.exit(1 if said else 0)


if __name__ == "__main__":
    main()
