#!/usr/bin/env python3
"""Draws docs/screens/crates.svg: the crates in layers, as crates.txt has them, and below them what a source becomes on its way.
Run it anywhere after a change of crates.txt.

usage: make_picture.py [--print]. With --print the picture goes to standard output."""
import os
import sys

HERE = os.path.dirname(os.path.abspath(__file__))
ROOT = os.path.dirname(os.path.dirname(HERE))
PICTURE = os.path.join(ROOT, "docs/screens/crates.svg")
WIDTH, BOX, HEIGHT, ROW, TOP = 980, 112, 34, 74, 40
GROUPS = {
    "#cfe3f5": ("assembling", ("syntax65", "expand65", "ast65", "semantics65", "sources65", "symbols65", "emit65", "asm65")),
    "#f8e3b8": ("linking", ("object65", "library65", "script65", "link65", "ld65", "ar65")),
    "#e3d5f0": ("one program", ("whole65",)),
    "#dddddd": ("shared", ("base65", "cli65", "output65", "tools65", "bin65")),
}
# Where each crate is from left to right, so that no arrow crosses a box.
COLUMNS = {
    "expand65": 0, "sources65": 0, "syntax65": 0.5, "semantics65": 0.5, "symbols65": 0.8, "asm65": 0.8, "ast65": 1, "emit65": 1.6,
    "base65": 2, "object65": 2, "library65": 2, "whole65": 2.4, "link65": 2.5, "tools65": 2.5, "bin65": 2.5,
    "script65": 3, "ld65": 3.1, "cli65": 4.2, "output65": 4.2, "ar65": 5,
}  # fmt: skip
# The forms of a program from the source to the image, each with the crate that produces the next.
FLOW = (
    ("source", "syntax65"), ("tokens", "expand65"), ("lines", "ast65"), ("statements", "symbols65"), ("sizes", "asm65"), ("entries", "emit65"),
    ("object", "library65"), ("modules", "script65"), ("addresses", "link65"), ("image", "output65"), ("file", None),
)  # fmt: skip


def crates():
    """The program's crates with those of them that each depends on."""
    with open(f"{ROOT}/crates.txt", encoding="utf-8") as it:
        lines = [line.partition(":") for line in it if not line.startswith("#")]
    ours = {name for name, _, _ in lines if not name.startswith("test")}
    return {name: [word for word in words.split() if word in ours] for name, _, words in lines if name in ours}


def below(found, name):
    """The crates that one depends on, directly or not."""
    return {other for it in found[name] for other in (it, *below(found, it))}


def direct(found, name):
    """Its dependencies but for those that follow from others."""
    return [it for it in found[name] if not any(it in below(found, other) for other in found[name])]


def layer(found, name):
    return 1 + max((layer(found, it) for it in found[name]), default=-1)


def places(found):
    """The middle of each crate's box, in layers from the bottom up."""
    top = max(layer(found, it) for it in found)
    return {name: (WIDTH * (column + 0.5) / 6, TOP + ROW * (top - layer(found, name))) for name, column in COLUMNS.items() if name in found}


def text(x, y, words, size=13, more=""):
    return f'<text x="{x:g}" y="{y:g}" font-family="sans-serif" font-size="{size}" text-anchor="middle"{more}>{words}</text>'


def colour_of(name):
    return next(colour for colour, (_, names) in GROUPS.items() if name in names)


def box(name, x, y):
    shape = f'<rect x="{x - BOX / 2:g}" y="{y - HEIGHT / 2:g}" width="{BOX}" height="{HEIGHT}" rx="5" fill="{colour_of(name)}" stroke="#555"/>'
    return [shape, text(x, y + 5, name)]


def arrow(start, end):
    """An arrow from one box's top to another's bottom."""
    (x, y), (to_x, to_y) = start, end
    return f'<path d="M{x:g} {y - HEIGHT / 2:g} L{to_x:g} {to_y + HEIGHT / 2 + 3:g}" fill="none" stroke="#888" marker-end="url(#to)"/>'


def flow(y):
    """Draws the forms of a program from left to right, with the crate that does each step."""
    yield text(WIDTH / 2, y - 28, "from a source to a file, and the crate that does each step", 13, ' fill="#555"')
    widths = [7.2 * len(words) + 6 for words, _ in FLOW]
    gap, x = (WIDTH - sum(widths)) / len(FLOW), 0
    for (words, maker), width in zip(FLOW, widths):
        x += gap / 2
        yield text(x + width / 2, y + 4, words, 13)
        x += width + gap / 2
        if maker:
            yield f'<path d="M{x - 8:g} {y:g} h15" stroke="#888" marker-end="url(#to)"/>'
            yield text(x, y + 24, maker, 11, ' fill="#555"')


def picture():
    """The text of the picture."""
    found = crates()
    if not set(found) <= set(COLUMNS) or not {maker for _, maker in FLOW if maker} <= set(found):
        sys.exit("make_picture.py: crates.txt has a crate that COLUMNS lacks, or lacks one of FLOW")
    where = places(found)
    bottom = max(y for _, y in where.values())
    lines = [
        f'<svg xmlns="http://www.w3.org/2000/svg" width="{WIDTH}" height="{bottom + 170:g}" viewBox="0 0 {WIDTH} {bottom + 170:g}">',
        "<title>The crates of bin65, and what a source becomes</title>",
        '<defs><marker id="to" viewBox="0 0 8 8" refX="7" refY="4" markerWidth="7" markerHeight="7" orient="auto">'
        '<path d="M0 0 L8 4 L0 8 z" fill="#888"/></marker></defs>',
        f'<rect width="{WIDTH}" height="{bottom + 170:g}" fill="#ffffff"/>',
    ]
    lines += [arrow(where[it], where[name]) for name in where for it in direct(found, name)]
    lines += [line for name in where for line in box(name, *where[name])]
    for at, (colour, (title, _)) in enumerate(GROUPS.items()):
        x = WIDTH / 2 + (at - 2) * 150 + 20
        lines += [f'<rect x="{x:g}" y="{bottom + 42:g}" width="14" height="14" fill="{colour}" stroke="#555"/>',
                  text(x + 62, bottom + 54, title, 12)]  # fmt: skip
    return "\n".join([*lines, *flow(bottom + 120), "</svg>"]) + "\n"


def main():
    if sys.argv[1:] == ["--print"]:
        sys.stdout.write(picture())
        return
    with open(PICTURE, "w", encoding="utf-8") as it:
        it.write(picture())


if __name__ == "__main__":
    main()
