#!/usr/bin/env python3
"""Loads one mapping of very many keys with this library and with the original, and prints a table.

usage: keys.py ORIGINAL [--keys N] [--turns N] [--runs N]

`ORIGINAL time FILE N` loads FILE N times. Instructions are counted by valgrind for one load, without those of a load of `a`; growth is
the whole's number by that of a tenth of the keys. Time is the processor time of a load, the least of some turns, in `--runs` runs; a
number that differs from run to run is printed as a range. Build the static library first: `cd crates/yamlbench && rt lib`.
"""
import argparse, os, sys, tempfile

import bench, hostile

KEYS = {
    "`k0000000`": lambda i: "k%07d" % i,
    "`service-name-0000000`": lambda i: "service-name-%07d" % i,
    "`0000000-name-of-service`": lambda i: "%07d-name-of-service" % i,
    "integers": lambda i: "%d" % i,
}
ORDERS = {
    "shuffled": lambda n: (i * 7919 % n for i in range(n)),
    "sorted": lambda n: range(n),
}


def text(key, order, count):
    return "".join("%s: v\n" % key(i) for i in order(count))


def row(name, order, count, programs, turns, runs, directory):
    key, places = KEYS[name], ORDERS[order]
    whole = text(key, places, count)
    small, large = programs.loaded(text(key, places, count // 10)), programs.loaded(whole)
    path = os.path.join(directory, "keys.yaml")
    with open(path, "w") as f:
        f.write(whole)
    timed = (programs.commands[0]("")[0], programs.commands[1]("")[0], None)
    found = [bench.each(timed, path, bench.rounds_for(len(whole)), turns) for _ in range(runs)]
    columns = ["%s, %s" % (name, order), "%.1f" % (large[0] / 1e6), "%.1f" % (large[1] / 1e6), "**%.2f**" % (large[0] / large[1])]
    columns += ["%.1f" % (large[0] / small[0]), "**%s**" % bench.span("%.2f", [ours[0] / theirs[0] for ours, theirs in found])]
    columns += [bench.span("%.0f", [run[i][1] for run in found]) for i in (0, 1)]
    return "| %s |" % " | ".join(columns)


def main():
    p = argparse.ArgumentParser()
    p.add_argument("original")
    p.add_argument("--keys", type=int, default=300000)
    p.add_argument("--turns", type=int, default=4)
    p.add_argument("--runs", type=int, default=1)
    a = p.parse_args()
    if not os.access(a.original, os.X_OK):
        sys.exit("keys.py: %s is not a program: the original's program is wanted" % a.original)
    if not os.path.exists(bench.LIBRARY):
        sys.exit("keys.py: no static library: cd crates/yamlbench && rt lib")
    print("| Keys | Ours, millions | Original, millions | Ratio | Growth from a tenth | Ratio of times | Ours, peak MB | Original, peak MB |")
    print("|---|---|---|---|---|---|---|---|")
    with tempfile.TemporaryDirectory() as directory:
        programs = hostile.Programs(bench.built(directory), a.original, directory)
        for name in KEYS:
            for order in ORDERS:
                print(row(name, order, a.keys, programs, a.turns, a.runs, directory), flush=True)


if __name__ == "__main__":
    main()
