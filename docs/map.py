#!/usr/bin/env python3
"""Draws docs/map.svg, the map of the crates, from crates.txt.

usage: map.py           writes docs/map.svg
       map.py --check   writes nothing; says where docs/map.svg or the lists of docs/ARCHITECTURE.md differ from crates.txt, with status 1

A band holds the crates of one kind. A crate stands in the row above those of its band that it imports from, and the lines are those
imports, without those that follow from others. A bar in a crate's box is for another kind that it imports from, in that kind's
colour. The way of a character is drawn over the lines.
"""
import html
import os
import re
import sys

TOP = os.path.join(os.path.dirname(os.path.abspath(__file__)), "..")
LIST, PAGE, MAP = (os.path.join(TOP, name) for name in ("crates.txt", "docs/ARCHITECTURE.md", "docs/map.svg"))

# The kinds of crates, each with a band: title, words beside it, colour, ground.
BANDS = [
    ("definitions", "what a reader must believe", "#1f5fa8", "#eaf2fb"),
    ("models", "what the code computes", "#2e7d4f", "#eaf6ee"),
    ("theorems", "without code", "#7a4aa3", "#f4eefa"),
    ("library", "lowest first", "#b35c00", "#fdf3e6"),
    ("programs", "and the libraries that only they use", "#4d5660", "#f0f2f4"),
    ("callers and tests", "proved from public contracts, and run", "#8a6d00", "#fbf7e0"),
]
# The bands from the highest to the lowest; two of a row stand side by side.
SHELVES = [[5], [4], [3], [2], [0, 1]]

# The way of a character, lowest first, with what each hands to the next; the numbers are those of 'How a character becomes a tree'.
WAY = [
    ("yaml_chars", "1, 2", "characters"),
    ("yaml_lexers", "5", "scalars, names"),
    ("yaml_scanner", "3, 4", "tokens"),
    ("yaml_parser", "6", "events"),
    ("yaml_loader", "7", "trees"),
]

WIDTH, LEFT, BOX, HEIGHT, ACROSS, UP, HEAD, BETWEEN = 900, 14, 158, 30, 18, 22, 30, 8
PER_ROW = 5


def crates():
    """The crates of crates.txt, each with those of them that it imports from."""
    found = {}
    with open(LIST) as lines:
        for line in lines:
            name, colon, low = line.split("#")[0].partition(":")
            if colon:
                found[name.split()[0]] = low.split()
    return {name: [it for it in low if it in found] for name, low in found.items()}


def is_program(name):
    return os.path.exists(os.path.join(TOP, "crates", name, "src", "main.rt"))


def kind(name):
    """The number of a crate's band."""
    for i, start in enumerate(("defs_", "model_", "proof_")):
        if name.startswith(start):
            return i
    if name.startswith(("test_", "example")) or name == "uses":
        return 5
    return 4 if name in ("yaml_programs", "yamlbench") or is_program(name) else 3


def below(name, low, seen=None):
    """All that a crate stands on, itself left out."""
    seen = set() if seen is None else seen
    for it in low[name]:
        if it not in seen:
            seen.add(it)
            below(it, low, seen)
    return seen


def lines_of(names, low):
    """The imports inside one band that do not follow from others, as pairs of a lower and a higher crate."""
    inside = {name: [it for it in low[name] if it in names] for name in names}
    for name in names:
        for it in inside[name]:
            if not any(it in below(other, inside) for other in inside[name]):
                yield it, name


def rows_of(names, low):
    """The rows of one band, lowest first."""
    def height(name):
        return 1 + max((height(it) for it in low[name] if it in names), default=-1)

    rows = [[name for name in names if height(name) == i] for i in range(max(map(height, names)) + 1)]
    return [row[i:i + PER_ROW] for row in rows for i in range(0, len(row), PER_ROW)]


def placed(rows, edges):
    """The column of each crate: those of the way stand in the first, each other one near those that it stands on, where there is room."""
    way = [name for name, _, _ in WAY]
    first = 1 if any(name in way for row in rows for name in row) else 0
    column = {}
    for row in rows:
        wish = {}
        for name in row:
            under = [column[a] for a, b in edges if b == name]
            wish[name] = sum(under) / len(under) if under else 0
        free, others = first, sorted((name for name in row if name not in way), key=wish.get)
        for i, name in enumerate(others):
            column[name] = max(free, min(round(wish[name]), PER_ROW - len(others) + i))
            free = column[name] + 1
        column.update((name, 0) for name in row if name in way)
    return column


def text(x, y, words, style, anchor="start"):
    return '<text x="%g" y="%g" text-anchor="%s" class="%s">%s</text>' % (x, y, anchor, style, html.escape(words))


def curve(low, high, others):
    """The line between two crates; beside a crate that stands straight between them."""
    x, y, to_x, to_y = low[0] + BOX / 2, low[1], high[0] + BOX / 2, high[1] + HEIGHT
    up = max(12, (y - to_y) / 3)
    aside = 0.8 * BOX if any(it[0] == low[0] == high[0] and high[1] < it[1] < low[1] for it in others) else 0
    return '<path d="M %g %g C %g %g %g %g %g %g" class="line"/>' % (x, y, x + aside, y - up, to_x + aside, to_y + up, to_x, to_y)


def box(name, x, y, low, steps):
    """A crate's box, with a bar for each other kind that it imports from."""
    own = kind(name)
    out = ['<rect x="%g" y="%g" width="%d" height="%d" rx="4" fill="#fff" stroke="%s" stroke-width="%s"/>' % (
        x, y, BOX, HEIGHT, BANDS[own][2], "2.4" if name in steps else "1.1")]
    out.append(text(x + 7, y + 15, name, "name"))
    for i, other in enumerate(sorted({kind(it) for it in low[name]} - {own})):
        out.append('<rect x="%g" y="%g" width="10" height="5" fill="%s"/>' % (x + 8 + 13 * i, y + HEIGHT - 9, BANDS[other][2]))
    if name in steps:
        out.append('<rect x="%g" y="%g" width="30" height="15" rx="7" class="step"/>' % (x + BOX - 24, y - 7))
        out.append(text(x + BOX - 9, y + 4, steps[name], "number", "middle"))
    return out


def band(i, low, x, y):
    """One band that begins at a point: the places of its crates, their lines, and its columns and height."""
    names = [name for name in low if kind(name) == i]
    edges = list(lines_of(names, low))
    rows = rows_of(names, low)
    column = placed(rows, edges)
    place = {}
    for j, row in enumerate(reversed(rows)):
        for name in row:
            place[name] = x + LEFT - 4 + column[name] * (BOX + ACROSS), y + HEAD + j * (HEIGHT + UP)
    return place, edges, max(column.values()) + 1, HEAD + len(rows) * (HEIGHT + UP) - UP + 14


def drawing():
    """The text of the SVG."""
    low = crates()
    steps = {name: number for name, number, _ in WAY}
    on_way = list(zip([name for name, _, _ in WAY], [name for name, _, _ in WAY][1:]))
    place, shapes, boxes, y = {}, [], [], 8
    for shelf in SHELVES:
        x, heights = 4, [band(i, low, 0, 0)[3] for i in shelf]
        for i, own in zip(shelf, heights):
            title, words, colour, ground = BANDS[i]
            here, edges, columns, _ = band(i, low, x, y + max(heights) - own)
            place.update(here)
            width = WIDTH - 4 - x if i == shelf[-1] else columns * (BOX + ACROSS) + 6
            shapes.append('<rect x="%g" y="%g" width="%g" height="%g" rx="6" fill="%s" stroke="%s" stroke-width="0.6"/>' % (x, y, width, max(heights), ground, colour))
            shapes.append('<text x="%g" y="%g" class="title" fill="%s">%s<tspan class="words" dx="8">%s</tspan></text>' % (
                x + LEFT - 4, y + 19, colour, html.escape(title), html.escape(words)))
            for a, b in edges:
                if (a, b) not in on_way:
                    shapes.append(curve(here[a], here[b], here.values()))
            for name in here:
                boxes += box(name, *place[name], low, steps)
            x += width + BETWEEN
        y += max(heights) + BETWEEN
    shapes += way(place) + boxes + legend(y + 4, {kind(it) for name in low for it in low[name] if kind(it) != kind(name)})
    return HEADER % (WIDTH, y + 62, WIDTH, y + 62) + "\n".join(shapes) + "\n</svg>\n"


def way(place):
    out = []
    names = [name for name, _, _ in WAY]
    for (name, _, gives), above in zip(WAY, names[1:] + [None]):
        x, y = place[name]
        to = place[above][1] + HEIGHT + 6 if above else y - UP + 2
        middle = x + BOX / 2 - 40
        out.append('<line x1="%g" y1="%g" x2="%g" y2="%g" class="way" marker-end="url(#tip)"/>' % (middle, y, middle, to))
        out.append(text(middle + 9, y - 6, gives, "gives"))
    return out


def legend(y, kinds):
    out = ['<line x1="%d" y1="%g" x2="%d" y2="%g" class="way" marker-end="url(#tip)"/>' % (LEFT, y + 14, LEFT + 28, y + 14),
           text(LEFT + 42, y + 18, "a character's way through the library, with the numbers of its steps on the page", "words"),
           '<line x1="%d" y1="%g" x2="%d" y2="%g" class="line"/>' % (LEFT + 560, y + 14, LEFT + 588, y + 14),
           text(LEFT + 596, y + 18, "the upper crate imports from the lower one", "words")]
    x = LEFT + 42
    out.append(text(x, y + 42, "a bar in a box: the crate also imports from", "words"))
    x += 262
    for i in sorted(kinds):
        out.append('<rect x="%g" y="%g" width="10" height="5" fill="%s"/>' % (x, y + 36, BANDS[i][2]))
        out.append(text(x + 15, y + 42, BANDS[i][0], "words"))
        x += 34 + 7 * len(BANDS[i][0])
    return out


HEADER = """<svg xmlns="http://www.w3.org/2000/svg" width="%d" height="%g" viewBox="0 0 %d %g">
<title>The map of the crates, made by docs/map.py from crates.txt</title>
<style>
.name { font: 12px monospace; fill: #1b1f24 }
.title { font: bold 14px sans-serif }
.words { font: 12px sans-serif; fill: #4d5660 }
.gives { font: italic 12px sans-serif; fill: #a01818; stroke: #fdf3e6; stroke-width: 4px; paint-order: stroke }
.number { font: bold 10px sans-serif; fill: #fff }
.line { fill: none; stroke: #9aa4ae; stroke-width: 1.1 }
.way { stroke: #c62828; stroke-width: 3.5 }
.step { fill: #c62828 }
</style>
<defs><marker id="tip" viewBox="0 0 6 6" refX="4" refY="3" markerWidth="3.4" markerHeight="3.4" orient="auto"><path d="M 0 0 L 6 3 L 0 6 z" fill="#c62828"/></marker></defs>
<rect width="100%%" height="100%%" fill="#fff"/>
"""


def faults():
    """What differs, a line each."""
    low = crates()
    for a, b in zip(WAY, WAY[1:]):
        if a[0] not in low.get(b[0], []):
            yield "the way of a character goes from %s to %s, but crates.txt has no such import" % (a[0], b[0])
    with open(PAGE) as page:
        listed = re.findall(r"^    (\w+) {2}", page.read(), re.M)
    for name in low:
        if listed.count(name) != 1:
            yield "docs/ARCHITECTURE.md lists %s %d times" % (name, listed.count(name))
    for name in listed:
        if name not in low:
            yield "docs/ARCHITECTURE.md lists %s, which is not in crates.txt" % name
    if not os.path.exists(MAP) or open(MAP).read() != drawing():
        yield "docs/map.svg is not the drawing of crates.txt: run docs/map.py"


def main():
    if sys.argv[1:] == ["--check"]:
        found = list(faults())
        for line in found:
            print("map.py: " + line)
        return 1 if found else 0
    if sys.argv[1:]:
        print("usage: map.py [--check]", file=sys.stderr)
        return 2
    with open(MAP, "w") as out:
        out.write(drawing())
    return 0


if __name__ == "__main__":
    sys.exit(main())
