#!/usr/bin/env python3
"""Takes the original's time of the loads of two jobs of bench/workloads.txt, `files` and `json`, and prints a table.

usage: peer.py ORIGINAL [SEED] [--turns N]

`ORIGINAL time FILE N` loads FILE N times. A job makes new texts at each turn; here the texts of its first turn are loaded, each as often as the
job has turns, so the times are near those of `bench/run` and not the same. The job `format` is left out: the original's program has no loop
for dumps. Nothing else should run meanwhile. Build crates/yamljobs first: `rt run -- all 1 1`.
"""
import argparse, os, statistics, subprocess, sys, tempfile, time

HERE = os.path.dirname(os.path.abspath(__file__))
JOBS = {"files": ["messages", "translations", "calls", "changes", "machines", "rules"], "json": ["records", "lock", "numbers", "escapes"]}


def turns_of(job):
    """How many turns a job has in bench/workloads.txt."""
    with open(os.path.join(HERE, "workloads.txt")) as f:
        return next(line.split()[-1] for line in f if line.split()[0] == job)


def seconds(original, paths, count):
    began = time.perf_counter()
    for path in paths:
        subprocess.run([original, "time", path, count], check=True, stdout=subprocess.DEVNULL)
    return time.perf_counter() - began


def main():
    p = argparse.ArgumentParser()
    p.add_argument("original")
    p.add_argument("seed", nargs="?", default="1")
    p.add_argument("--turns", type=int, default=5)
    a = p.parse_args()
    program = os.path.join(HERE, "..", "crates", "yamljobs", "out", "yamljobs")
    if not os.path.exists(program):
        sys.exit("peer.py: crates/yamljobs is not built: rt run -- all 1 1")
    print("| Workload | The original, seconds |")
    print("|---|---|")
    for job, names in JOBS.items():
        with tempfile.TemporaryDirectory() as directory:
            paths = [os.path.join(directory, name) for name in names]
            for path, name in zip(paths, names):
                with open(path, "wb") as f:
                    f.write(subprocess.run([program, "text", name, a.seed], capture_output=True, check=True).stdout)
            print("| %s | %.3f |" % (job, statistics.median(seconds(a.original, paths, turns_of(job)) for _ in range(a.turns))), flush=True)


if __name__ == "__main__":
    main()
