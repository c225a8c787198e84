#!/usr/bin/env python3
"""Loads texts of hostile shapes, each of at most 100 KB, within the limits for their length, on 8 MB of stack and in 500 MB of memory.

usage: limits.py [--bytes N] [--only SHAPE]
       limits.py --within N [--bytes N] [--only SHAPE]   within so many levels and this size, in 200 MB: the texts that ask for most before an event

Each shape of bench/hostile.py, of hostile/deep.py and of this file is made as long as fits. It is loaded, and then used: compared, hashed,
shown, dumped, laid over itself and copied. A line tells the result, the time and the memory. The last line says whether any of them
ended the program by a signal.
Build the static library first: `cd crates/yamlbench && rt lib`.
"""
import argparse, os, resource, subprocess, sys, tempfile, time

HERE = os.path.dirname(os.path.abspath(__file__))
sys.path[:0] = [os.path.join(HERE, "..", "bench"), HERE]
import bench, deep, hostile

RESULTS = {"1": "loaded", "-1": "refused: the text's fault, or memory", "-2": "refused: over the limits"}


def items(n):
    return "[" + "a, " * (n // 3) + "]"


def doubled(width, levels, opening, closing):
    """Each line has so many aliases of the line before."""
    lines = ["- &a0 " + opening + "x" + closing]
    lines += ["- &a%d %s%s%s" % (i, opening, ", ".join(["*a%d" % (i - 1)] * width), closing) for i in range(1, levels)]
    return "\n".join(lines) + "\n"


def aliased(n, item, size, levels):
    """An array of such items, below so many levels as many aliases of it as the limits allow, and a comment."""
    count = n // 10 // (len(item) + 2)
    text = "- &a [" + (item + ", ") * count + "]\n" + levels + "- ["
    aliases = min((3 * n + 100000) // (1 + count * size) - 3, (n - len(text)) // 4)
    text += "*a, " * aliases + "]\n"
    return text + "#" * (n - len(text))


def tagged(n):
    """A declared prefix of half the text, as many nodes with a tag of it as the limits allow, and a comment."""
    prefix = n // 2
    text = "%TAG !e! " + "x" * prefix + "\n---\n" + "- !e!a b\n" * min((3 * n + 100000) // (prefix + 3) - 1, n // 20)
    return text + "#" * (n - len(text))


# Texts of about n bytes. Those that are called 'within' are built to load, and to come near the limits.
OURS = {
    "two deep keys": lambda n: "? " + "- " * (n // 4) + "x\n: 1\n? " + "- " * (n // 4) + "y\n: 2\n",
    "a deep key twice": lambda n: "? " + "- " * (n // 4) + "x\n: 1\n? " + "- " * (n // 4) + "x\n: 2\n",
    "arrays in arrays": lambda n: "- " * (n // 2) + "x\n",
    "keys in keys": lambda n: "? " * (n // 2) + "x\n",
    "brackets": lambda n: "[" * n,
    "255 brackets": lambda n: ("- " + "[" * 255 + "]" * 255 + "\n") * (n // 513),
    "20 lines of 3 aliases each": lambda n: doubled(3, 20, "[", "]"),
    "30 lines of 2 aliases each": lambda n: doubled(2, 30, "[", "]"),
    "aliases as keys": lambda n: doubled(2, 14, "[", "]") + "- {" + ", ".join("? [*a13, %d]" % i for i in range(n // 20)) + "}\n",
    "a large array, many aliases": lambda n: "- &a " + items(n // 2) + "\n" + "- *a\n" * (n // 10),
    "a long scalar, many aliases": lambda n: "- &a '" + "x" * (n // 2) + "'\n" + "- *a\n" * (n // 10),
    "nested anchors over a large array": lambda n: "".join("&a%d [" % i for i in range(250)) + items(n - 3000)[1:-1] + "]" * 250 + "\n",
    "nested anchors in blocks": lambda n: "".join("- &a%d\n" % i + " " * (i + 1) for i in range(200)) + items(n // 2) + "\n",
    "an alias in its own node": lambda n: "&a [" + "*a, " * (n // 4) + "]\n",
    "many tags of a long prefix": lambda n: "%TAG !e! tag:" + "x" * (n // 2) + "\n---\n" + "- !e!a b\n" * (n // 18),
    "tags of a long prefix, within": tagged,
    "tags of three letters, within": lambda n: "[" + "!!int 1," * (n // 8) + "]\n",
    "tags of a letter": lambda n: "[" + "!!a," * (n // 4) + "]\n",
    "keys with one digest": lambda n: "".join("? [%d]\n: v\n" % i for i in range(n // 13)),
    "single pairs": lambda n: "[" + ":," * (n // 2) + "]\n",
    "aliases of nulls, within": lambda n: aliased(n, "~", 2, ""),
    "aliases of empty hashes, within": lambda n: aliased(n, "{}", 1, ""),
    "aliases of pairs, within": lambda n: aliased(n, "{:}", 3, ""),
    "aliases of arrays in arrays, within": lambda n: aliased(n, "[[[[[]]]]]", 5, ""),
    "the same under 200 levels, within": lambda n: aliased(n, "[[[[[]]]]]", 5, "- " * 200),
    "aliases of nulls under 200 levels, within": lambda n: aliased(n, "~", 2, "- " * 200),
    "deep keys, within": lambda n: "".join("? " + "[" * 250 + "%d" % i + "]" * 250 + "\n: v\n" for i in range(n // 510)),
    "escapes in a key twice": lambda n: '? "' + "\\0" * (n // 5) + '"\n: 1\n? "' + "\\0" * (n // 5) + '"\n: 2\n',
}


# Texts of about n bytes that hold much back before the first event, or between two.
HELD = {
    "single pairs": OURS["single pairs"],
    "single pairs, never closed": lambda n: "[" + ":," * (n // 2),
    "brackets": OURS["brackets"],
    "keys of braces": lambda n: "{a: " * (n // 4),
    "brackets in brackets": lambda n: "[" * 200 + "[]," * (n // 3),
    "keys in a key": lambda n: "{{" + "a: 1, " * (n // 6),
    "empty strings": lambda n: "[" + '"",' * (n // 3),
    "tags and anchors": lambda n: "[" + "&a !b c," * (n // 8),
    "question marks": lambda n: "[" + "? ," * (n // 3),
    "a long scalar in flow": lambda n: "['" + "x" * n + "']\n",
    "handles": lambda n: "".join("%%TAG !%x! x\n" % i for i in range(n // 14)) + "--- x\n",
    "dashes": lambda n: "- " * (n // 2) + "x\n",
    "a block's end": lambda n: "- " * 100000 + "x\n" + "- y\n" * ((n - 200000) // 4),
}


def longest(make, most):
    """The longest text of a shape that has at most so many bytes."""
    low, high = 0, 1
    while len(make(high)) <= most and high < 64 * most:
        low, high = high, 2 * high
    while high - low > 1:
        middle = (low + high) // 2
        low, high = (middle, high) if len(make(middle)) <= most else (low, middle)
    return make(low)


def all_shapes():
    yield from OURS.items()
    yield from hostile.SHAPES.items()
    for deed, (_, make) in deep.DEEDS.items():
        for kind, level in deep.BLOCKS.items():
            yield "to %s: %s" % (deed, kind), lambda n, make=make, level=level: make(level * n)
    yield "29 lines of `[*a, *a]`", lambda n: deep.DOUBLED


def texts(most):
    """Each shape with its longest text, without a text that was there already."""
    seen = set()
    for name, make in all_shapes():
        text = longest(make, most)
        if text not in seen:
            seen.add(text)
            yield name, text


def limited(megabytes):
    resource.setrlimit(resource.RLIMIT_STACK, (8 << 20, 8 << 20))
    resource.setrlimit(resource.RLIMIT_AS, (megabytes << 20, megabytes << 20))


def run(program, path, deed):
    """The result, the seconds and the megabytes."""
    began = time.time()
    most = 500 if deed in ("load", "use") else 200
    process = subprocess.Popen([program, path, deed], stdout=subprocess.PIPE, preexec_fn=lambda: limited(most))
    out = process.stdout.read().decode().strip()
    _, status, used = os.wait4(process.pid, 0)
    process.returncode = status
    result = RESULTS[out] if status == 0 else "ENDED with status %d" % status
    return result, time.time() - began, used.ru_maxrss // 1024


def main():
    p = argparse.ArgumentParser()
    p.add_argument("--bytes", type=int)
    p.add_argument("--within")
    p.add_argument("--only")
    a = p.parse_args()
    most = a.bytes or (10000000 if a.within else 100000)
    shapes = ((name, longest(make, most)) for name, make in HELD.items()) if a.within else texts(most)
    if not os.path.exists(bench.LIBRARY):
        sys.exit("limits.py: no static library: cd crates/yamlbench && rt lib")
    ended = count = 0
    with tempfile.TemporaryDirectory() as directory:
        kit = os.path.dirname(subprocess.run(["rt", "doc"], capture_output=True, text=True, check=True).stdout.split()[0])
        program = os.path.join(directory, "limits")
        subprocess.run(["gcc", "-O2", "-o", program, os.path.join(HERE, "limits.c"), bench.LIBRARY, os.path.join(kit, "c", "liblibc_c.a")], check=True)
        path = os.path.join(directory, "text")
        for name, text in shapes:
            if a.only and a.only != name:
                continue
            count += 1
            with open(path, "w") as f:
                f.write(text)
            for deed in (a.within,) if a.within else ("load", "use"):
                result, seconds, megabytes = run(program, path, deed)
                ended += result.startswith("ENDED")
                print("%-36s %8d bytes  %-7s %6.2f s %4d MB  %s" % (name, len(text), deed, seconds, megabytes, result), flush=True)
    print("%d texts; %s" % (count, "none ended the program" if not ended else "%d runs ENDED the program" % ended))
    return bool(ended)


if __name__ == "__main__":
    sys.exit(main())
