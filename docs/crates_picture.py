#!/usr/bin/env python3
"""Draws docs/pictures/crates.svg: the crates, each above those that it stands on, in the colours of their rows in docs/ARCHITECTURE.md.

    docs/crates_picture.py          writes the picture
    docs/crates_picture.py --look   ends with 1 where the picture isn't that of crates.txt and of the table

A line leads from a crate down to one that it stands on. Lines that follow from others are left out, and so are the crates of tests.
"""
import os
import re
import sys

TOP = os.path.join(os.path.dirname(os.path.abspath(__file__)), "..")
PICTURE = os.path.join(TOP, "docs", "pictures", "crates.svg")
TESTS = "Tests alone"
COLOURS = ("#e8f3e6", "#e3edf7", "#fdf1dc", "#f0e9f6", "#fbe6e3", "#e6f4f4", "#f7f3d5", "#f6e6ef", "#eeeeee", "#e9eef9", "#f3ece2")
BOX_WIDTH, BOX_HEIGHT, GAP, ROW_HEIGHT, MARGIN = 132, 28, 16, 72, 14
SWEEPS = 24


def read(*path):
    with open(os.path.join(TOP, *path)) as file:
        return file.read()


def layers():
    """The rows of the table in docs/ARCHITECTURE.md, without that of tests: what each is called, and its crates."""
    rows = re.findall(r"^\| ([^|]+) \| ((?:`\w+`(?:, )?)+) \|$", read("docs", "ARCHITECTURE.md"), re.M)
    return [(name, re.findall(r"`(\w+)`", crates)) for name, crates in rows if name != TESTS]


def all_below(crate, below):
    """All crates that a crate stands on, also by way of others."""
    found = set()
    for name in below[crate]:
        found |= {name} | all_below(name, below)
    return found


def lines_of(crates):
    """For each crate those right below it: a crate that it reaches by another one is left out."""
    uses = re.findall(r"^(\w+)[^:#\n]*:(.*)$", read("crates.txt"), re.M)
    below = {name: [word for word in words.split() if word in crates] for name, words in uses if name in crates}
    reach = {name: all_below(name, below) for name in below}
    return {name: [one for one in below[name] if not any(one in reach[other] for other in below[name])] for name in below}


def heights(below):
    """How many rows of crates each crate has below it."""
    known = {}

    def height(crate):
        if crate not in known:
            known[crate] = 1 + max((height(name) for name in below[crate]), default=-1)
        return known[crate]

    return {crate: height(crate) for crate in below}


def places(below):
    """The left edge and the upper edge of each crate's box. In a row a crate stands near the middle of those that it is tied to."""
    above = {crate: [name for name in below if crate in below[name]] for crate in below}
    height = heights(below)
    rows = [[crate for crate in below if height[crate] == level] for level in range(max(height.values()) + 1)]
    widest = max(len(row) for row in rows)
    column = {crate: at + (widest - len(row)) / 2 for row in rows for at, crate in enumerate(row)}
    for _ in range(SWEEPS):
        for row in rows:
            middle = {crate: sum(column[name] for name in below[crate] + above[crate]) / len(below[crate] + above[crate]) for crate in row}
            for at, crate in enumerate(sorted(row, key=lambda name: (middle[name], name))):
                column[crate] = at + (widest - len(row)) / 2
    lowest = len(rows) - 1
    return {crate: (MARGIN + column[crate] * (BOX_WIDTH + GAP), MARGIN + (lowest - height[crate]) * ROW_HEIGHT) for crate in below}


def line(start, end):
    """A curve from the lower edge of one box to the upper edge of another."""
    x, y = start[0] + BOX_WIDTH / 2, start[1] + BOX_HEIGHT
    to_x, to_y = end[0] + BOX_WIDTH / 2, end[1]
    bend = min(ROW_HEIGHT, (to_y - y) / 2)
    curve = f"M{x:g} {y:g} C{x:g} {y + bend:g} {to_x:g} {to_y - bend:g} {to_x:g} {to_y:g}"
    return f'<path d="{curve}" fill="none" stroke="#9a9a9a" stroke-width="1"/>'


def box(crate, place, colour):
    x, y = place
    return (
        f'<rect x="{x:g}" y="{y:g}" width="{BOX_WIDTH}" height="{BOX_HEIGHT}" rx="4" fill="{colour}" stroke="#666666"/>\n'
        f'<text x="{x + BOX_WIDTH / 2:g}" y="{y + 18:g}" text-anchor="middle">{crate}</text>'
    )


def legend(names, top):
    """A square and a name for each row of the table."""
    marks = []
    for at, name in enumerate(names):
        x, y = MARGIN + (at % 3) * 390, top + (at // 3) * 22
        marks.append(f'<rect x="{x}" y="{y}" width="14" height="14" fill="{COLOURS[at]}" stroke="#666666"/>')
        marks.append(f'<text x="{x + 22}" y="{y + 12}">{name}</text>')
    return marks


def picture():
    table = layers()
    colour = {crate: COLOURS[at] for at, (_, crates) in enumerate(table) for crate in crates}
    below = lines_of(colour)
    place = places(below)
    width = max(x for x, _ in place.values()) + BOX_WIDTH + MARGIN
    top = max(y for _, y in place.values()) + BOX_HEIGHT + 2 * MARGIN
    height = top + 22 * ((len(table) + 2) // 3) + MARGIN
    parts = [
        f'<svg xmlns="http://www.w3.org/2000/svg" viewBox="0 0 {width:g} {height:g}" width="{width:g}" height="{height:g}"'
        ' font-family="sans-serif" font-size="12">',
        "<title>The crates by layers</title>",
        f'<rect width="{width:g}" height="{height:g}" fill="#ffffff"/>',
        *[line(place[crate], place[name]) for crate in below for name in below[crate]],
        *[box(crate, place[crate], colour[crate]) for crate in below],
        *legend([name for name, _ in table], top),
        "</svg>",
    ]
    return "\n".join(parts) + "\n"


def main():
    if sys.argv[1:] == ["--look"]:
        if read("docs", "pictures", "crates.svg") == picture():
            return 0
        print("docs/pictures/crates.svg: not the crates of crates.txt; docs/crates_picture.py draws them")
        return 1
    with open(PICTURE, "w") as file:
        file.write(picture())
    return 0


if __name__ == "__main__":
    sys.exit(main())
