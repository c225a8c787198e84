#!/usr/bin/env python3
"""Compares where the faults of refused requests for memory stand, and how many events come before each, with what is written here. Then it
refuses each request of loads, loads within limits, overlays and all other calls in turn, and counts. refuse.c says what is looked at.

usage: refuse.py [--places | --short]

With --places it does only the first. With --short it does the first, refuses each request of the loads, and of overlays and all other calls
each seventh. Build the static library first: `cd crates/yamlbench && rt lib`.
"""
import os, subprocess, sys, tempfile

HERE = os.path.dirname(os.path.abspath(__file__))
sys.path.insert(0, os.path.join(HERE, "..", "bench"))
import bench

LAID_OUT = "---\n# top\n\n   ? - 1\n     - 2\n# mid\n   :       - x\n           - |\n                 p\n\n                 q\n   k:\n# c\n     z: {}\n"
INPUTS = ["%TAG !prefix! tag:example.com,2011:\n--- !prefix!A\na: b\n", "---\n? key:\n    - 1\n    - 2\n    - 3\n: - 4\n  - 5\n  - 6", ">\n a\n b\n\n c\n  d\n e\n",
          "a1: &DEFAULT\n    b1: 4\n    b2: d\na2: *DEFAULT\n", LAID_OUT, "[[[[{a: b}]]]]", '"' + "long " * 100 + '"',
          "%YAML 1.2\n%TAG !a! x:\n--- !a!b &c [*c, ? d : 'e', !<%C3%A9> f]\n...\n---\n- &x y\n- *x\n", '{"a":"\\u00e9\\n","b":[1,2.5,-0,true,null]}',
          "a: |\n  x\n  y\n\nb: >-\n  p\n  q\n", "? [1, 2]\n: {c: d}\n",
          "".join("k%d: v\n" % (i * 7 % 300) for i in range(300)),
          # Read as JSON at once; and what begins as JSON and is none.
          '[{"name": "a long text of more than twenty-four characters", "on": [true, null, -1.5e3]}, {"%s": {"b": "\\u0436\\n\\t"}}]\n' % ("k" * 30),
          '[{"a": [1, "b", {}]}, [[2], {"c": "d"}], bare]\n', '{"a": 1}\n---\n[2]\n', '["\\ud83d", 1]\n'.replace("\\ud83d", "\\U0001f600"),
          # Keys and values that are taken at once, behind ends of blocks too, and items.
          "a:\n  b:\n    c: some words of a value\n    d: 2\ne: f\ng:\n  - h: i\n    j: k\n  - l\nm: n\n", "- alpha\n- beta gamma delta epsilon zeta eta theta\n- x: y\n  z: 1\n",
          # Block scalars with long lines, and scalars whose words end late at a `:`, an escape or a quote.
          "a: |\n  %s\nb: >\n  %s\n  %s\n\n  x\nc: |-\n  y\n" % ("w" * 40, "words of text " * 5, "more of them " * 6),
          "a: %s:x and %s\nb: \"%s\\n\"\nc: '%s''s'\n" % ("w" * 26, "v" * 30, "words " * 9, "u" * 25),
          # Deeper than the sixteen levels for which a walk through a tree takes no memory.
          "- " * 20 + "{a: b}\n", "[" * 20 + "1" + ", {}]" * 20 + "\n", "? " * 18 + "x: y\n",
          # Deeper than the 128 levels that a dump writes by calls, and the sixteen after them.
          "- " * 150 + "{a: b}\n",
          # A hash whose index comes with one of these pairs, from blocks and from JSON.
          "".join("key%d: %d\n" % (i, i) for i in range(16)), "{" + ", ".join('"key%d": %d' % (i * 5 % 16, i) for i in range(16)) + "}\n"]


# Texts that do not load as they stand: a handle that is kept for three documents, and a key twice in two ways.
OTHERS = ["%TAG !prefix! tag:example.com,2011:\n--- !prefix!A\na: b\n--- !prefix!B\nc: d\n--- !prefix!C\ne: f", '{"a":1,"a":2}', "? [x, {y: z}]\n: 1\n? [x, {y: z}]\n: 2\n"]

# Where the faults of refused requests stand, of the events of a text whose characters come one by one: EVENTS:INDEX, and how many requests in
# turn have it there. So it was at commit 356243a4, before texts in memory were read in another way: no event is lost, and a fault stands after
# the character that the request was for.
PLACES = {"a:\n  b:\n    c: d\ne: f\n": "0:0x3 1:0 1:2 4:5 6:12 8:15 9:17 12:20",
          "a:\n    b: c\n  d: e\n": "0:0x3 1:0 1:2 4:7 6:10 7:14",
          "a:\n  b:\n    c:\n      d: e\nf: g\n": "0:0x3 1:0 1:2 4:5 6:12 8:21 8:23x2 10:24 11:26 15:29",
          "- - - a: b\nc: d\n": "0:0x3 1:1 5:6 5:8x2 7:9 8:11",
          "\"abcdefghijklmnopqrstuvwxyz\"\n": "0:0x3 1:1 1:10 1:18",
          "\"ab\\ncdefghijklmnopqrstuvwxyz\"\n": "0:0x3 1:1 1:11 1:19",
          "\"abcdefg\\nhijklmnopqrstuvwxyz\"\n": "0:0x3 1:1 1:11 1:19",
          "\"\\n\\n\\n\\n\\n\\n\\n\\n\\n\\n\\n\\n\\n\\n\\n\\n\\n\\n\\n\\n\"\n": "0:0x3 1:2 1:18 1:34",
          "'a''bcdefghijklmnopqrstuvwxyz'\n": "0:0x3 1:1 1:11 1:19",
          "abcdefghijklmnopqrstuvwxyzabcdefghijklmnopqrstuvwxyz\n": "0:0x3 1:0 1:25 1:49",
          "12:30:45:a:b:c:d:e:f:g:h:i:j:k:l:m:n:o:p\n": "0:0x3 1:0 1:24",
          "|\n  abcdefghijklmnopq\n  abc\n  abcdefghijk\n\n  ab\n": "0:0x3 1:4 1:12 1:20 1:40 1:43",
          ">\n  a\n  bcd\n  ef\n  mnopqrstuvwxyz\n": "0:0x3 1:4 1:19 1:26",
          "- alpha: \"beta\"\n  delta: epsilon\n- x\n": "0:0x3 1:1 3:2 5:10 6:18 7:25 9:35"}
# In a JSON text that is read at once, a fault stands where the text was read up to: no fault before an earlier one, and only the first at 0.
JSON_TEXT = '["abc", {"key": "a text of more than twenty-four characters"}]\n'


def write_all(directory, name, texts):
    """The files that hold these texts."""
    paths = [os.path.join(directory, "%s%02d" % (name, i)) for i in range(len(texts))]
    for path, text in zip(paths, texts):
        with open(path, "w") as f:
            f.write(text)
    return paths


def places(program, directory):
    """Prints where faults stand that are not where they ought to be. The result is how many such there are."""
    paths = write_all(directory, "place", [*PLACES, JSON_TEXT])
    lines = subprocess.run([program, "--places", *paths], capture_output=True, text=True, check=True).stdout.splitlines()
    bad = 0
    for i, (text, wanted) in enumerate(PLACES.items()):
        for found in lines[3 * i:3 * i + 2]:
            if found.strip() != wanted:
                print("%r: faults at%s, and not at %s" % (text, found, wanted))
                bad += 1
    indices = [int(place.split(":")[1].split("x")[0]) for place in lines[-1].split()]
    if indices != sorted(indices) or indices.count(0) > 1:
        print("%r: faults at %s" % (JSON_TEXT, indices))
        bad += 1
    print("faults of refused requests in %d texts: %s" % (len(paths), "%d are in another place" % bad if bad else "each is in its place"))
    return bad


def main():
    if not os.path.exists(bench.LIBRARY):
        sys.exit("refuse.py: no static library: cd crates/yamlbench && rt lib")
    kit = os.path.dirname(subprocess.run(["rt", "doc"], capture_output=True, text=True, check=True).stdout.split()[0])
    with tempfile.TemporaryDirectory() as directory:
        program = os.path.join(directory, "refuse")
        paths, others = write_all(directory, "text", INPUTS), write_all(directory, "other", OTHERS)
        wraps = ["-Wl,--wrap=malloc", "-Wl,--wrap=realloc", "-Wl,--wrap=free"]
        subprocess.run(["gcc", "-O2", "-o", program, os.path.join(HERE, "refuse.c"), bench.LIBRARY, os.path.join(kit, "c", "liblibc_c.a"), *wraps], check=True)
        bad = places(program, directory)
        if bad or sys.argv[1:] == ["--places"]:
            return 1 if bad else 0
        every = ["--every", "7"] if sys.argv[1:] == ["--short"] else []
        return subprocess.run([program, *every, *paths, "--", *others]).returncode


if __name__ == "__main__":
    sys.exit(main())
