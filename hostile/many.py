#!/usr/bin/env python3
"""Loads the texts of compare/fuzz.py by the static library alone: that none ends the program, and the most time a byte.

usage: many.py [--seed N] [--count N]

Build the static library first: `cd crates/yamlbench && rt lib`. Long texts with an alias are left out: their trees double.
"""
import argparse, os, struct, subprocess, sys, tempfile

HERE = os.path.dirname(os.path.abspath(__file__))
sys.path[:0] = [os.path.join(HERE, "..", "bench"), os.path.join(HERE, "..", "compare")]
import bench, fuzz


def main():
    p = argparse.ArgumentParser()
    p.add_argument("--seed", type=int, default=2026)
    p.add_argument("--count", type=int, default=1000000)
    a = p.parse_args()
    if not os.path.exists(bench.LIBRARY):
        sys.exit("many.py: no static library: cd crates/yamlbench && rt lib")
    kit = os.path.dirname(subprocess.run(["rt", "doc"], capture_output=True, text=True, check=True).stdout.split()[0])
    with tempfile.TemporaryDirectory() as directory:
        program = os.path.join(directory, "many")
        subprocess.run(["gcc", "-O2", "-o", program, os.path.join(HERE, "many.c"), bench.LIBRARY, os.path.join(kit, "c", "liblibc_c.a")], check=True)
        process = subprocess.Popen([program], stdin=subprocess.PIPE)
        for text in fuzz.texts(a.seed, a.count):
            if len(text) < fuzz.GROWN // 2 or "*" not in text:
                octets = text.encode("utf-8", "ignore")
                process.stdin.write(struct.pack("<I", len(octets)) + octets)
        process.stdin.close()
        return process.wait()


if __name__ == "__main__":
    sys.exit(main())
