#!/usr/bin/env python3
"""Finds how deep a tree may be for each deed to end well on a stack of 8 MB, and loads a text of aliases that double under a limit of memory.

usage: deep.py [DEED ..]

Build the static library first: `cd crates/yamlbench && rt lib`. Each deed is tried with up to 300,000 levels; the answer lies between
the two numbers, of which one ended well and the other by a signal.
"""
import os, subprocess, sys, tempfile

HERE = os.path.dirname(os.path.abspath(__file__))
sys.path.insert(0, os.path.join(HERE, "..", "bench"))
import bench

MOST = 300000
BLOCKS = {"arrays": "- ", "hash keys": "? ", "hash values": ": "}
# Deep trees with a JSON text are made without a text: flow collections of more than 255 levels are refused, and a block mapping's keys
# are indented. Each byte is a level (`yamlbench_json_of_levels`).
JSON = {"arrays": "[", "arrays with an item after": ",", "hash values": "{", "hash values with a pair after": ":", "of each kind in turn": "[,{:"}
# What the program is told, and the text. A clone is made for an alias, two keys are compared for a mapping, and a key is shown where it
# comes twice. A tree is laid over itself, and the merge keys of a tree that has none are carried out.
DEEDS = {
    "load and drop": ("load", lambda levels: levels + "x\n"),
    "clone": ("load", lambda levels: "- &a\n  " + levels + "x\n- *a\n"),
    "compare": ("load", lambda levels: "? " + levels + "x\n: 1\n? " + levels + "y\n: 2\n"),
    "show": ("load", lambda levels: "? " + levels + "x\n: 1\n? " + levels + "x\n: 2\n"),
    "hash": ("hash", lambda levels: levels + "x\n"),
    "dump": ("dump", lambda levels: levels + "x\n"),
    "debug": ("debug", lambda levels: levels + "x\n"),
    "the law laid_out": ("look", lambda levels: levels + "x\n"),
    "overlay": ("overlay", lambda levels: levels + "x\n"),
    "merge": ("merge", lambda levels: levels + "x\n"),
}


def rows():
    """Each deed, with the text of so many levels."""
    for name, (deed, make) in DEEDS.items():
        for shape, level in BLOCKS.items():
            yield name, shape, deed, lambda levels, make=make, level=level: make(level * levels)
    for shape, kinds in JSON.items():
        yield "JSON out", shape, "json", lambda levels, kinds=kinds: (kinds * levels)[:levels]


DOUBLED = "- &a1 [x, x]\n" + "".join("- &a%d [*a%d, *a%d]\n" % (i, i - 1, i - 1) for i in range(2, 30))


def built(directory):
    """The program over our library."""
    kit = os.path.dirname(subprocess.run(["rt", "doc"], capture_output=True, text=True, check=True).stdout.split()[0])
    program = os.path.join(directory, "deep")
    subprocess.run(["gcc", "-O2", "-o", program, os.path.join(HERE, "deep.c"), bench.LIBRARY, os.path.join(kit, "c", "liblibc_c.a")], check=True)
    return program


def status(program, directory, deed, text, limit):
    path = os.path.join(directory, "text")
    with open(path, "w") as f:
        f.write(text)
    return subprocess.run(["bash", "-c", "ulimit %s; exec %s %s %s" % (limit, program, path, deed)], capture_output=True).returncode


def depth(program, directory, deed, make):
    # A load of two equal keys is refused.
    def ends_well(levels): return status(program, directory, deed, make(levels), "-s 8192") in ((0,) if deed == "json" else (0, 1))
    if ends_well(MOST):
        return "at least %d" % MOST
    low, high = 1, MOST
    while high - low > low // 50:
        middle = (low + high) // 2
        low, high = (middle, high) if ends_well(middle) else (low, middle)
    return "%d to %d" % (low, high)


def main():
    if not os.path.exists(bench.LIBRARY):
        sys.exit("deep.py: no static library: cd crates/yamlbench && rt lib")
    with tempfile.TemporaryDirectory() as directory:
        program = built(directory)
        for name, shape, deed, make in rows():
            if not sys.argv[1:] or name in sys.argv[1:]:
                print("%s, %s: %s levels" % (name, shape, depth(program, directory, deed, make)), flush=True)
        # The program ends with status 1 where the load is refused.
        answered = status(program, directory, "load", DOUBLED, "-v 1000000")
        print("29 lines of `[*a, *a]` under 1 GB: %s" % ("refused" if answered == 1 else "status %d" % answered))


if __name__ == "__main__":
    main()
