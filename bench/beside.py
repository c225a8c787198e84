#!/usr/bin/env python3
"""Counts the instructions of what this library has beside the original: loads with positions, and JSON out.

usage: beside.py [--bytes N] [--only KIND]

A load with positions stands beside a plain load of the same text, JSON out beside a dump of the same trees without the load. Instructions
are counted by valgrind, so the numbers are the same on a busy machine: those of two rounds less those of one. Where a document has no JSON
text, the columns on JSON are empty. Build the static library first: `cd crates/yamlbench && rt lib`.
"""
import argparse, os, sys, tempfile

import bench, inputs
from dumps import counted


def of_one(program, deed, path):
    """The instructions of one round, or None where it is refused."""
    one, printed = counted([program, deed, path, "1"])
    two, _ = counted([program, deed, path, "2"])
    return None if int(printed) < 0 else two - one


def columns(program, deed, other, path):
    """The numbers of both in millions, and their ratio."""
    ours, theirs = of_one(program, deed, path), of_one(program, other, path)
    if ours is None or theirs is None:
        return ["", "", ""]
    return ["%.3f" % (ours / 1e6), "%.3f" % (theirs / 1e6), "**%.2f**" % (ours / theirs)]


def main():
    p = argparse.ArgumentParser()
    p.add_argument("--bytes", type=int, default=200000)
    p.add_argument("--only", choices=list(inputs.KINDS))
    a = p.parse_args()
    if not os.path.exists(bench.LIBRARY):
        sys.exit("beside.py: no static library: cd crates/yamlbench && rt lib")
    print("| Input | With positions, millions | Plain load, millions | Ratio | JSON out, millions | Dump, millions | Ratio |")
    print("|---|---|---|---|---|---|---|")
    with tempfile.TemporaryDirectory() as directory:
        program = bench.built(directory, "beside")
        path = os.path.join(directory, "text")
        for kind in inputs.KINDS:
            if a.only in (None, kind):
                with open(path, "w") as f:
                    f.write(inputs.make(kind, a.bytes))
                row = [kind, *columns(program, "marked", "load", path), *columns(program, "json", "dump", path)]
                print("| %s |" % " | ".join(row), flush=True)


if __name__ == "__main__":
    main()
