#!/usr/bin/env python3
"""Dumps the same trees with this library and with the original, and prints a table.

usage: dumps.py ORIGINAL [--bytes N] [--only KIND] [--time]

Each kind is a text of bench/inputs.py, which both load. `ORIGINAL dump [--spread] [--multiline] FILE` dumps FILE. Instructions
are counted by valgrind, so the numbers are the same on a busy machine: ours are those of two dumps less those of one, so that the
load is left out, and the original's those within its emitter's `dump`. Growth is our number by that of a tenth of the text, for
each character. With --time, on a quiet machine, seconds are added: the processor time of each process by its dumps of a text
twenty times as long, less that of the load, the least of several runs that take turns. Each dump's length is compared with the
original's. Build the static library first: `cd crates/yamlbench && rt lib`.
"""
import argparse, os, re, subprocess, sys, tempfile

import bench, inputs

KINDS = ("block", "json", "literal", "quoted")
SETTINGS = {"block": ([], ["--spread"]), "json": ([], ["--spread"]), "literal": ([], ["--multiline"]), "quoted": ([], ["--multiline"])}
EMITTER = "yaml_rust2::emitter::YamlEmitter::dump"
COUNTED = re.compile(r"(?:Collected :|I\s+refs:)\s+([0-9,]+)")
ROUNDS = 20


def counted(command, *options):
    """The instructions of a process, and what it prints."""
    valgrind = ["valgrind", "--tool=callgrind", "--callgrind-out-file=/dev/null", *options]
    done = subprocess.run([*valgrind, *command], capture_output=True)
    found = COUNTED.search(done.stderr.decode())
    if done.returncode or not found:
        sys.exit("dumps.py: %s failed: %s" % (" ".join(command), done.stderr[-300:].decode()))
    return int(found[1].replace(",", "")), done.stdout


class Programs:
    def __init__(self, ours, original, directory):
        self.ours, self.original, self.directory = ours, original, directory

    def written(self, kind, size):
        """A file with the text, and its length."""
        text = inputs.make(kind, size).encode()
        path = os.path.join(self.directory, "%s_%d" % (kind, size))
        with open(path, "wb") as f:
            f.write(text)
        return path, len(text)

    def instructions(self, path, settings):
        """Those of a dump by this library, and the bytes of it."""
        one, printed = counted([self.ours, path, "1", *settings])
        two, _ = counted([self.ours, path, "2", *settings])
        return two - one, int(printed)

    def instructions_of_original(self, path, settings):
        number, dump = counted([self.original, "dump", *settings, path], "--toggle-collect=" + EMITTER)
        # It prints a line feed after each dump.
        return number, len(dump) - 1

    def seconds(self, path, settings, turns):
        """Those of a dump, by each."""
        commands = ([self.ours, path, "0"], [self.ours, path, str(ROUNDS), *settings],
                    [self.original, "time", path, "1"], [self.original, "dump", *settings, path])
        best = [1e9] * 4
        for _ in range(turns):
            for i, command in enumerate(commands):
                best[i] = min(best[i], bench.measured(command)[0])
        return (best[1] - best[0]) / ROUNDS, best[3] - best[2]


def row(kind, settings, size, programs):
    small, small_bytes = programs.written(kind, size // 10)
    path, length = programs.written(kind, size)
    part, _ = programs.instructions(small, settings)
    whole, dumped = programs.instructions(path, settings)
    theirs, their_bytes = programs.instructions_of_original(path, settings)
    if dumped != their_bytes:
        sys.exit("dumps.py: %s: a dump of %d bytes, the original's has %d" % (kind, dumped, their_bytes))
    return "| %s | %d | %.3f | %.3f | **%.2f** | %.1f |" % (
        " ".join([kind, *settings]), dumped, whole / 1e6, theirs / 1e6, whole / theirs, whole / part / (length / small_bytes) * 10)


def timed(kind, settings, size, programs, turns):
    """More columns: the seconds of a dump of a text twenty times as long."""
    path, _ = programs.written(kind, 20 * size)
    ours, theirs = programs.seconds(path, settings, turns)
    return " %.4f | %.4f | %.2f |" % (ours, theirs, ours / theirs)


def main():
    p = argparse.ArgumentParser()
    p.add_argument("original")
    p.add_argument("--bytes", type=int, default=200000)
    p.add_argument("--turns", type=int, default=3)
    p.add_argument("--only", choices=KINDS)
    p.add_argument("--time", action="store_true")
    a = p.parse_args()
    if not os.access(a.original, os.X_OK):
        sys.exit("dumps.py: %s is not a program: the original's program is wanted" % a.original)
    if not os.path.exists(bench.LIBRARY):
        sys.exit("dumps.py: no static library: cd crates/yamlbench && rt lib")
    more = (" Ours, s | Original, s | Ratio |", "---|---|---|") if a.time else ("", "")
    print("| Dump | Bytes | Ours, millions | Original, millions | Ratio | Growth from a tenth |" + more[0])
    print("|---|---|---|---|---|---|" + more[1])
    with tempfile.TemporaryDirectory() as directory:
        programs = Programs(bench.built(directory, "dump"), a.original, directory)
        for kind in KINDS:
            for settings in SETTINGS[kind]:
                if a.only in (None, kind):
                    more = timed(kind, settings, a.bytes, programs, a.turns) if a.time else ""
                    print(row(kind, settings, a.bytes, programs) + more, flush=True)


if __name__ == "__main__":
    main()
