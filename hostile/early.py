#!/usr/bin/env python3
"""Counts what the first look at JSON costs where a text is seen at its first characters to be none, however much comes after them.

usage: early.py

Each text stands before 10 and before 1,000,000 characters, and is loaded once. Instructions are counted by valgrind. Those of a load of the same text
behind 65 line feeds are taken off, at which no look is taken: what is left is the look, less what the line feeds cost. The two
numbers of a row may differ by 1,000; else the status is 1. Build the static library first: `cd crates/yamlbench && rt lib`.
"""
import os, sys, tempfile

HERE = os.path.dirname(os.path.abspath(__file__))
sys.path.insert(0, os.path.join(HERE, "..", "bench"))
import cases, dumps

# What begins a text, what comes after it again and again, and what ends it.
ROWS = {
    "`[@`, then blanks": ("[@", " ", ""),
    "`{]`, then blanks": ("{]", " ", ""),
    "`[@`, then blanks and `]`": ("[@", " ", "]"),
    "`[1]` and NUL, then blanks": ("[1]\0", " ", ""),
    "`{\"a\": @`, then blanks and `}`": ("{\"a\": @", " ", "}"),
    "`[1 1]`, then items": ("[1 1]", ",1", "]"),
    "`[01`, then items": ("[01", ",1", "]"),
    "`[\"\\q`, then letters": ("[\"\\q", "a", "\"]"),
    "`[}`, then items": ("[}", ",1", "]"),
}
COUNTS = (10, 1000000)
MORE = 1000


def loaded(program, path, text):
    with open(path, "w", newline="") as f:
        f.write(text)
    return dumps.counted([program, "load", path, "1"])[0]


def main():
    bad = False
    with tempfile.TemporaryDirectory() as directory:
        program = cases.built(os.path.join(HERE, ".."), directory, 0)
        path = os.path.join(directory, "text")
        print("| Text | before %d characters | before %d |" % COUNTS)
        print("|---|---|---|")
        for name, (first, more, last) in ROWS.items():
            numbers = []
            for count in COUNTS:
                rest = (more * count)[:count] + last
                plain = "\n" * 65 + first + rest
                numbers.append(loaded(program, path, first + rest) - loaded(program, path, plain))
            bad = bad or abs(numbers[1] - numbers[0]) > MORE
            print("| %s | %d | %d |" % (name, *numbers), flush=True)
    sys.exit(1 if bad else 0)


if __name__ == "__main__":
    main()
