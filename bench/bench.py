#!/usr/bin/env python3
"""Loads the same texts with this library and with the original, and prints a table.

usage: bench.py ORIGINAL [--bytes N] [--turns N] [--runs N] [--only KIND]

`ORIGINAL time FILE N` loads FILE N times. Both programs make the trees and take them apart again; what is measured is the
processor time of each process by its loads, the least of several turns, and its peak memory. All of that is done `--runs` times, and
a number that differs from run to run is printed as a range. Build the static library first: `cd crates/yamlbench && rt lib`. Where
libyaml is installed with its header (Debian's libyaml-dev), its document loader loads the same texts, and stands in two more columns;
not on `anchors`, where its time grows with the square of the text.
"""
import argparse, os, subprocess, sys, tempfile

import inputs

HERE = os.path.dirname(os.path.abspath(__file__))
LIBRARY = os.path.join(HERE, "..", "crates", "yamlbench", "out", "libyamlbench.a")


def built(directory, name="load"):
    """A program over our library."""
    kit = os.path.dirname(subprocess.run(["rt", "doc"], capture_output=True, text=True, check=True).stdout.split()[0])
    program = os.path.join(directory, name)
    subprocess.run(["gcc", "-O2", "-o", program, os.path.join(HERE, name + ".c"), LIBRARY, os.path.join(kit, "c", "liblibc_c.a")], check=True)
    return program


def built_libyaml(directory):
    """The program over libyaml, or None where libyaml is not installed."""
    program = os.path.join(directory, "libyaml")
    done = subprocess.run(["gcc", "-O2", "-o", program, os.path.join(HERE, "libyaml.c"), "-lyaml"], capture_output=True)
    return program if done.returncode == 0 else None


def measured(command):
    """Processor seconds and peak memory in MB of a process."""
    quiet = [(os.POSIX_SPAWN_OPEN, 1, os.devnull, os.O_WRONLY, 0)]
    pid = os.posix_spawn(command[0], command, os.environ, file_actions=quiet)
    _, status, used = os.wait4(pid, 0)
    if status:
        sys.exit("bench.py: %s failed" % " ".join(command))
    return used.ru_utime + used.ru_stime, used.ru_maxrss / 1024


def each(programs, path, rounds, turns):
    """The least seconds a load and the peak memory, of each program; libyaml's may be missing."""
    ours, theirs, libyaml = programs
    commands = [[ours, path, str(rounds)], [theirs, "time", path, str(rounds)]]
    if libyaml:
        commands.append([libyaml, path, str(rounds)])
    best = [(1e9, 0)] * len(commands)
    for _ in range(turns):
        for i, command in enumerate(commands):
            seconds, memory = measured(command)
            best[i] = min(best[i], (seconds / rounds, memory))
    return best


def rounds_for(size):
    return max(3, 4000000 // size)


def span(form, numbers):
    """The least and the greatest of some numbers, in this form."""
    low, high = form % min(numbers), form % max(numbers)
    return low if low == high else "%s to %s" % (low, high)


def texts(kind, size, directory):
    """The files of a tenth of a text and of the whole, each with its number of bytes."""
    for part in (size // 10, size):
        text = inputs.make(kind, part).encode()
        path = os.path.join(directory, "%s_%d" % (kind, part))
        with open(path, "wb") as f:
            f.write(text)
        yield path, len(text)


def row(kind, size, programs, directory, turns, runs):
    (small_path, small_bytes), (path, size) = texts(kind, size, directory)
    whole, growth = [], []
    for _ in range(runs):
        small = each(programs, small_path, rounds_for(small_bytes), turns)
        whole.append(each(programs, path, rounds_for(size), turns))
        growth.append(10 * whole[-1][0][0] / size / (small[0][0] / small_bytes))

    def speed(i): return span("%.0f", [size / 1e6 / run[i][0] for run in whole])
    def ratio(i): return "**%s**" % span("%.2f", [run[0][0] / run[i][0] for run in whole])
    def peak(i): return span("%.0f", [run[i][1] for run in whole])
    columns = [kind, "%.3f" % (size / 1e6), speed(0), speed(1), ratio(1), span("%.1f", growth), peak(0), peak(1)]
    if len(whole[0]) > 2:
        columns += [speed(2), ratio(2)]
    return "| %s |" % " | ".join(columns)


def main():
    p = argparse.ArgumentParser()
    p.add_argument("original")
    p.add_argument("--bytes", type=int, default=4000000)
    p.add_argument("--turns", type=int, default=5)
    p.add_argument("--runs", type=int, default=1)
    p.add_argument("--only", choices=list(inputs.KINDS))
    a = p.parse_args()
    if not os.access(a.original, os.X_OK):
        sys.exit("bench.py: %s is not a program: the original's program is wanted" % a.original)
    if not os.path.exists(LIBRARY):
        sys.exit("bench.py: no static library: cd crates/yamlbench && rt lib")
    with tempfile.TemporaryDirectory() as directory:
        libyaml = built_libyaml(directory)
        more = (" libyaml, MB/s | Ratio to libyaml |", "---|---|") if libyaml else ("", "")
        print("| Input | MB | Ours, MB/s | Original, MB/s | Ratio of times | Growth from a tenth | Ours, peak MB | Original, peak MB |" + more[0])
        print("|---|---|---|---|---|---|---|---|" + more[1])
        programs = (built(directory), a.original, libyaml)
        for kind in inputs.KINDS:
            if a.only in (None, kind):
                asked = programs if kind != "anchors" else (*programs[:2], None)
                print(row(kind, a.bytes, asked, directory, a.turns, a.runs), flush=True)


if __name__ == "__main__":
    main()
