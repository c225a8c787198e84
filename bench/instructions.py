#!/usr/bin/env python3
"""Counts the instructions of a load, of this library, the original and libyaml, and prints a table.

usage: instructions.py ORIGINAL [--bytes N] [--only KIND]

`ORIGINAL time FILE N` loads FILE N times. Instructions are counted by valgrind, so the numbers are the same on a busy machine: those of
two loads less those of one. Growth is our number by that of a tenth of the text, beside what the text itself grows by, in characters.
libyaml's columns are there where it is installed with its header. Build the static library first: `cd crates/yamlbench && rt lib`.
"""
import argparse, os, sys, tempfile

import bench, inputs
from dumps import counted


def of_a_load(command):
    one, two = [counted(command + [rounds])[0] for rounds in "12"]
    return two - one


def row(kind, size, programs, directory):
    ours, original, libyaml = programs
    numbers, lengths = [], []
    path = os.path.join(directory, "text")
    for part in (size // 10, size):
        text = inputs.make(kind, part)
        with open(path, "w") as f:
            f.write(text)
        numbers.append(of_a_load([ours, path]))
        lengths.append(len(text))
    theirs = of_a_load([original, "time", path])
    columns = [kind, "%.3f" % (numbers[1] / 1e6), "%.3f" % (theirs / 1e6), "**%.2f**" % (numbers[1] / theirs)]
    columns += ["%.1f" % (pair[1] / pair[0]) for pair in (numbers, lengths)]
    if libyaml:
        theirs = of_a_load([libyaml, path])
        columns += ["%.3f" % (theirs / 1e6), "**%.2f**" % (numbers[1] / theirs)]
    return "| %s |" % " | ".join(columns)


def main():
    p = argparse.ArgumentParser()
    p.add_argument("original")
    p.add_argument("--bytes", type=int, default=200000)
    p.add_argument("--only", choices=list(inputs.KINDS))
    a = p.parse_args()
    if not os.access(a.original, os.X_OK):
        sys.exit("instructions.py: %s is not a program: the original's program is wanted" % a.original)
    if not os.path.exists(bench.LIBRARY):
        sys.exit("instructions.py: no static library: cd crates/yamlbench && rt lib")
    with tempfile.TemporaryDirectory() as directory:
        programs = (bench.built(directory), a.original, bench.built_libyaml(directory))
        more = (" libyaml, millions | Ratio to libyaml |", "---|---|") if programs[2] else ("", "")
        print("| Input | Ours, millions | Original, millions | Ratio | Growth from a tenth | of the text |" + more[0])
        print("|---|---|---|---|---|---|" + more[1])
        for kind in inputs.KINDS:
            if a.only in (None, kind):
                print(row(kind, a.bytes, programs, directory), flush=True)


if __name__ == "__main__":
    main()
