#!/usr/bin/env python3
"""Draws docs/bench.svg from the table of bench/instructions.py.

usage: chart.py [TABLE]   TABLE is a file with what instructions.py printed; without it the table in docs/BENCH.md is drawn
       chart.py --check   writes nothing; says whether docs/bench.svg is the drawing of the table in docs/BENCH.md, with status 1 if not

Each kind of input has a bar for each library: the instructions of one load, where the original's are 1. A bar beyond the edge is cut, and has
its number.
"""
import html
import os
import sys

TOP = os.path.join(os.path.dirname(os.path.abspath(__file__)), "..")
PAGE, CHART = os.path.join(TOP, "docs", "BENCH.md"), os.path.join(TOP, "docs", "bench.svg")
HEAD = "| Input | Ours, millions |"

# The libraries: the table's column, the name, the colour.
LIBRARIES = [("Ours, millions", "this library", "#c62828"), ("Original, millions", "the original, yaml-rust2", "#9aa4ae"),
             ("libyaml, millions", "libyaml, in C", "#4a7fb5"), ("libfyaml, millions", "libfyaml, in C", "#2e7d4f")]
WIDTH, LEFT, RIGHT, BAR, GAP, EDGE = 820, 110, 70, 10, 14, 2.0


def table(text):
    """The rows of the first table of instructions, each a dictionary by the titles of its columns."""
    lines = text[text.index(HEAD):].split("\n")
    cells = [[cell.strip() for cell in line.strip("|").split("|")] for line in lines]
    end = next((i for i, line in enumerate(lines) if not line.startswith("|")), len(lines))
    return [dict(zip(cells[0], row)) for row in cells[2:end]]


def words(x, y, text, style, anchor="start"):
    return '<text x="%g" y="%g" text-anchor="%s" class="%s">%s</text>' % (x, y, anchor, style, html.escape(text))


def bars(row, libraries, y):
    """The bars of one kind of input."""
    unit = (WIDTH - LEFT - RIGHT) / EDGE
    out = [words(LEFT - 10, y + len(libraries) * BAR / 2 + 4, row["Input"], "kind", "end")]
    for i, (column, _, colour) in enumerate(libraries):
        ratio = float(row[column]) / float(row["Original, millions"])
        length, top = min(ratio, EDGE) * unit, y + i * BAR
        out.append('<rect x="%g" y="%g" width="%.1f" height="%d" fill="%s"/>' % (LEFT, top, length, BAR - 1, colour))
        if ratio > EDGE:
            x = LEFT + length - 16
            out.append('<path d="M %g %g l 5 -11 h 5 l -5 11 z" fill="#fff"/>' % (x, top + BAR))
        out.append(words(LEFT + length + 5, top + BAR - 1, "%.2f" % ratio, "number"))
    return out


def drawing(rows):
    libraries = [it for it in LIBRARIES if rows[0].get(it[0])]
    step = len(libraries) * BAR + GAP
    bottom = 64 + len(rows) * step
    shapes, x = [words(LEFT, 20, "Instructions of one load, where the original's are 1: less is better", "title")], LEFT
    for _, name, colour in libraries:
        shapes.append('<rect x="%g" y="32" width="10" height="10" fill="%s"/>' % (x, colour))
        shapes.append(words(x + 15, 41, name, "kind"))
        x += 46 + 7 * len(name)
    for tenths in range(0, int(EDGE * 10) + 1, 5):
        at = LEFT + tenths / 10 / EDGE * (WIDTH - LEFT - RIGHT)
        shapes.append('<line x1="%g" y1="54" x2="%g" y2="%g" class="%s"/>' % (at, at, bottom - 6, "one" if tenths == 10 else "grid"))
        shapes.append(words(at, bottom + 8, "%.1f" % (tenths / 10), "number", "middle"))
    for i, row in enumerate(rows):
        shapes += bars(row, libraries, 60 + i * step)
    return STYLE % ((WIDTH, bottom + 18) * 2) + "\n".join(shapes) + "\n</svg>\n"


STYLE = """<svg xmlns="http://www.w3.org/2000/svg" width="%d" height="%d" viewBox="0 0 %d %d">
<title>Instructions of one load, made by bench/chart.py</title>
<style>
.title { font: bold 14px sans-serif; fill: #1b1f24 }
.kind { font: 12px sans-serif; fill: #1b1f24 }
.number { font: 10px sans-serif; fill: #4d5660 }
.grid { stroke: #e1e5e9; stroke-width: 1 }
.one { stroke: #4d5660; stroke-width: 1.2; stroke-dasharray: 4 3 }
</style>
<rect width="100%%" height="100%%" fill="#fff"/>
"""


def main():
    arguments = sys.argv[1:]
    if len(arguments) > 1 or arguments and arguments[0].startswith("-") and arguments != ["--check"]:
        print("usage: chart.py [TABLE | --check]", file=sys.stderr)
        return 2
    is_check = arguments == ["--check"]
    with open(arguments[0] if arguments and not is_check else PAGE) as source:
        drawn = drawing(table(source.read()))
    if is_check:
        is_same = os.path.exists(CHART) and open(CHART).read() == drawn
        if not is_same:
            print("chart.py: docs/bench.svg is not the drawing of the table in docs/BENCH.md: run bench/chart.py")
        return 0 if is_same else 1
    with open(CHART, "w") as out:
        out.write(drawn)
    return 0


if __name__ == "__main__":
    sys.exit(main())
