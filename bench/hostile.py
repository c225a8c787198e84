#!/usr/bin/env python3
"""Counts the instructions of a load over texts of hostile shapes, of this library and of the original, and prints a table.

usage: hostile.py ORIGINAL [--lines N] [--only SHAPE]

Each shape is a text of N lines, levels or items, and one of a tenth. `ORIGINAL time FILE 1` loads FILE. Instructions are counted by
valgrind, so the numbers are the same on a busy machine; those of a load of `a` are taken off. Growth is the whole's number by that of
the tenth: 10 where time is linear. Build the static library first: `cd crates/yamlbench && rt lib`.
"""
import argparse, os, re, subprocess, sys, tempfile

import bench

SHAPES = {
    "many anchors": lambda n: "".join("- &a%d x\n" % i for i in range(n)),
    "one anchor, many aliases": lambda n: "- &a x\n" + "- *a\n" * n,
    "many `%TAG`": lambda n: "".join("%%TAG !a%d! tag:x,%d:\n" % (i, i) for i in range(n)) + "--- a\n",
    "lines of a plain scalar": lambda n: "words of text\n" * n,
    "lines of a double-quoted scalar": lambda n: '"' + "words of text\n" * n + '"\n',
    "lines of a single-quoted scalar": lambda n: "'" + "words of text\n" * n + "'\n",
    "lines of a folded scalar": lambda n: ">\n" + "  words of text\n" * n,
    "lines of a literal scalar": lambda n: "|\n" + "  words of text\n" * n,
    "empty lines": lambda n: "\n" * n + "a\n",
    "empty lines in a quoted scalar": lambda n: '"a' + "\n" * n + 'b"\n',
    "comments": lambda n: "# words of text\n" * n + "a\n",
    "nested `? `": lambda n: "? " * n + "a\n",
    "nested `- `": lambda n: "- " * n + "a\n",
    "documents": lambda n: "--- a\n" * n,
    "a long key in flow": lambda n: "{" + "a" * n + ": 1}\n",
    "many keys in flow, none with a value": lambda n: "{" + "".join("a%d, " % i for i in range(n // 50)) + "}\n",
    "items of a flow sequence": lambda n: "[" + "a, " * n + "]\n",
    "pairs in a flow sequence": lambda n: "[" + "a: b, " * n + "]\n",
    "keys of one mapping": lambda n: "".join("k%d: v\n" % i for i in range(n // 50)),
    "keys that begin alike": lambda n: "".join("service-name-%07d: v\n" % (i * 7919 % (n // 5)) for i in range(n // 5)),
    "escapes": lambda n: '"' + "\\u00e9" * n + '"\n',
    "tags": lambda n: "- !!str a\n" * n,
}
COUNTED = re.compile(r"I\s+refs:\s+([0-9,]+)")


def counted(command):
    """The instructions of a process."""
    valgrind = ["valgrind", "--tool=cachegrind", "--cache-sim=no", "--cachegrind-out-file=/dev/null"]
    done = subprocess.run([*valgrind, *command], capture_output=True, text=True)
    if done.returncode:
        sys.exit("hostile.py: %s failed: %s" % (" ".join(command), done.stderr[-300:]))
    return int(COUNTED.search(done.stderr)[1].replace(",", ""))


class Programs:
    def __init__(self, ours, original, directory):
        self.commands = [lambda path: [ours, path, "1"], lambda path: [original, "time", path, "1"]]
        self.directory = directory
        self.idle = [0, 0]
        self.idle = self.loaded("a\n")

    def loaded(self, text):
        """The instructions of a load, by each."""
        path = os.path.join(self.directory, "text")
        with open(path, "w") as f:
            f.write(text)
        return [counted(command(path)) - idle for command, idle in zip(self.commands, self.idle)]


def row(name, lines, programs):
    part, whole = SHAPES[name](lines // 10), SHAPES[name](lines)
    small, large = programs.loaded(part), programs.loaded(whole)
    grown = len(whole) / len(part) / 10
    return "| %s | %d | %.1f | %.1f | %.1f | %.1f | **%.2f** |" % (
        name, len(whole), large[0] / len(whole), large[1] / len(whole), large[0] / small[0] / grown, large[1] / small[1] / grown, large[0] / large[1])


def main():
    p = argparse.ArgumentParser()
    p.add_argument("original")
    p.add_argument("--lines", type=int, default=100000)
    p.add_argument("--only", choices=list(SHAPES))
    a = p.parse_args()
    if not os.access(a.original, os.X_OK):
        sys.exit("hostile.py: %s is not a program: the original's program is wanted" % a.original)
    if not os.path.exists(bench.LIBRARY):
        sys.exit("hostile.py: no static library: cd crates/yamlbench && rt lib")
    print("| Shape | Characters | Ours, instructions a character | Original | Ours, growth from a tenth | Original | Ratio |")
    print("|---|---|---|---|---|---|---|")
    with tempfile.TemporaryDirectory() as directory:
        programs = Programs(bench.built(directory), a.original, directory)
        for name in SHAPES:
            if a.only in (None, name):
                print(row(name, a.lines, programs), flush=True)


if __name__ == "__main__":
    main()
