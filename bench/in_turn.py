#!/usr/bin/env python3
"""Measures the memory of a log of many documents: loaded as a whole, and one document at a time.

usage: in_turn.py [--most N]

Both programs hold the whole text; the memory in the table is the peak of the process less the text. Build the static library
first: `cd crates/yamlbench && rt lib`.
"""
import argparse, os, subprocess, sys, tempfile

import bench


def write_log(path, documents):
    """So many documents, one for each event of a service. They are not held: the peak of a child is at least this process's memory."""
    levels = ("info", "warning", "error")
    with open(path, "w") as f:
        for i in range(documents):
            f.write("---\nnumber: %d\nlevel: %s\ntags: [web, %d]\nmessage: request served\n" % (i, levels[i % 3], i % 7))
    return os.path.getsize(path)


def memory(program, deed, path, size):
    """The peak memory without the text, in MB."""
    _, peak = bench.measured([program, deed, path, "1"])
    return peak - size / 2**20


def main():
    p = argparse.ArgumentParser()
    p.add_argument("--most", type=int, default=1000000)
    a = p.parse_args()
    if not os.path.exists(bench.LIBRARY):
        sys.exit("in_turn.py: no static library: cd crates/yamlbench && rt lib")
    print("| Documents | Text, MB | As a whole, MB beside the text | One at a time, MB beside the text |")
    print("|---|---|---|---|")
    with tempfile.TemporaryDirectory() as directory:
        program = bench.built(directory, "beside")
        path = os.path.join(directory, "text")
        for documents in (a.most // 4, a.most // 2, a.most):
            size = write_log(path, documents)
            given = subprocess.run([program, "in_turn", path, "1"], capture_output=True, check=True).stdout
            if int(given) != documents:
                sys.exit("in_turn.py: %d documents of %d came" % (int(given), documents))
            whole, turn = (memory(program, deed, path, size) for deed in ("load", "in_turn"))
            print("| %d | %.1f | %.1f | %.1f |" % (documents, size / 2**20, whole, turn), flush=True)


if __name__ == "__main__":
    main()
