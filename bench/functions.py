#!/usr/bin/env python3
"""Prints which functions a load's instructions go to, of this library and of the original, a table each.

usage: functions.py ORIGINAL [--bytes N] [--only KIND] [--rows N]

Instructions are counted by valgrind: those of two loads less those of one, so that a program's start is left out. Each row is a function:
its calls, the instructions of a call without what it calls, their sum in millions, and, of ours, the share of these that loads, stores or
clears memory, or makes and leaves a frame. What the allocator takes is one row. Build the static library first:
`cd crates/yamlbench && rt lib`.
"""
import argparse, os, re, subprocess, sys, tempfile

import bench, inputs

KINDS = ("block", "json")
ALLOCATION = re.compile(r"malloc|free|realloc|_int_|unlink_chunk|rattle_(de|re)?alloc|__rustc::|alloc_perturb|systrim")
MARKED = re.compile(r"(c?)fn=\((\d+)\)(?: (.*))?")
COST = re.compile(r"(0x[0-9a-f]+|[+-]\d+|\*) (\d+)$")
CLEARS = re.compile(r"(mov\w*\s+\$0x0,.*\(|(xorps|pxor)\s)")
MOVES = re.compile(r"mov\w*\s.*\(")
FRAMES = re.compile(r"(push|pop|ret|leave)|(sub|add)\s+\$\w+,%rsp")


def executed(command, directory):
    """Of each function its calls, and how often each of its instructions ran, by address."""
    out = os.path.join(directory, "callgrind")
    valgrind = ["valgrind", "--tool=callgrind", "--dump-instr=yes", "--dump-line=no", "--callgrind-out-file=" + out]
    if subprocess.run([*valgrind, *command], capture_output=True).returncode:
        sys.exit("functions.py: %s failed" % " ".join(command))
    names, calls, ran = {}, {}, {}
    here, called, inner, address = None, None, False, 0
    with open(out) as lines:
        for line in lines:
            marked, cost = MARKED.match(line), COST.match(line.strip())
            if marked:
                names.setdefault(marked[2], marked[3])
                called = names[marked[2]]
                here = here if marked[1] else called
            elif line.startswith("calls="):
                calls[called] = calls.get(called, 0) + int(line[6:].split()[0])
                inner = True
            elif cost:
                step = cost[1]
                address = int(step, 16) if step[0] == "0" else address if step == "*" else address + int(step)
                if not inner:
                    at = ran.setdefault(here, {})
                    at[address] = at.get(address, 0) + int(cost[2])
                inner = False
    return calls, ran


def loads(command, directory):
    """The same, of one load."""
    (calls, ran), (more, further) = [executed(command + [rounds], directory) for rounds in "12"]
    of_one = {name: more[name] - calls.get(name, 0) for name in more}
    return of_one, {name: {a: n - ran.get(name, {}).get(a, 0) for a, n in at.items()} for name, at in further.items()}


def moving(program, name, ran):
    """The share of a function's executed instructions that move data, or None where its code isn't found."""
    shown = subprocess.run(["objdump", "-d", "--no-show-raw-insn", "--disassemble=" + name, program], capture_output=True, text=True).stdout
    code = {int(a, 16): text for a, text in re.findall(r"^\s+([0-9a-f]+):\t(.*)$", shown, re.M)}
    if not code:
        return None
    shift = min(ran) - min(code)
    moved = sum(n for a, n in ran.items() if any(form.match(code.get(a - shift, "")) for form in (CLEARS, MOVES, FRAMES)))
    return moved / max(1, sum(ran.values()))


def table(program, command, directory, rows):
    calls, ran = loads(command, directory)
    total = {name: sum(at.values()) for name, at in ran.items()}
    allocation = sum(n for name, n in total.items() if ALLOCATION.match(name))
    print("| %s | Calls | Each | Millions | Moved |\n|---|---|---|---|---|" % os.path.basename(program))
    print("| all | | | %.2f | |\n| allocation | | | %.2f | |" % (sum(total.values()) / 1e6, allocation / 1e6))
    names = sorted((name for name in total if not ALLOCATION.match(name)), key=lambda name: -total[name])
    for name in names[:rows]:
        share, count = moving(program, name, ran[name]), max(1, calls.get(name, 1))
        short = re.sub(r"::<#[0-9a-f]+>", "", name)
        moved = "" if share is None else "%.0f %%" % (100 * share)
        print("| `%s` | %d | %d | %.2f | %s |" % (short, count, total[name] / count, total[name] / 1e6, moved))
    print(flush=True)


def main():
    p = argparse.ArgumentParser()
    p.add_argument("original")
    p.add_argument("--bytes", type=int, default=200000)
    p.add_argument("--only", choices=list(inputs.KINDS))
    p.add_argument("--rows", type=int, default=12)
    a = p.parse_args()
    if not os.access(a.original, os.X_OK):
        sys.exit("functions.py: %s is not a program: the original's program is wanted" % a.original)
    if not os.path.exists(bench.LIBRARY):
        sys.exit("functions.py: no static library: cd crates/yamlbench && rt lib")
    with tempfile.TemporaryDirectory() as directory:
        ours = bench.built(directory)
        for kind in [a.only] if a.only else KINDS:
            path = os.path.join(directory, kind)
            with open(path, "w") as f:
                f.write(inputs.make(kind, a.bytes))
            print("%s\n" % kind)
            table(ours, [ours, path], directory, a.rows)
            table(a.original, [a.original, "time", path], directory, a.rows)


if __name__ == "__main__":
    main()
