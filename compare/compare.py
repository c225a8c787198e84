#!/usr/bin/env python3
"""Compares this library with another program that prints the same lines.

usage: compare.py OURS THEIRS tokens|events|dumps [--exhaustive LENGTH] [--seed N] [--count N] [--json N] [--shapes N] [--trees N] [--show N]
       compare.py OURS THEIRS decoding [--exhaustive LENGTH] [--seed N] [--count N] [--show N]

`OURS COMMAND` and `THEIRS batch COMMAND` read paths from standard input and print, for each file, a line `== PATH`, its tokens or
events, and a line `ERR ..` where a fault comes. `dumps` asks for `debug` (each document's tree on a line, as Rust's `Debug` prints it)
and `dump [--spread] [--multiline]` (each document's dump and a line feed). It makes the trees of `--trees` anew from our dumps of them,
as they are and with CR LF, which must be the same trees.

`decoding` asks `OURS decode TRAP` and `THEIRS decode TRAP` in the same way, of files of any bytes: the trees, or `ERR scan FAULT`,
`ERR decode MESSAGE`. TRAP is `ignore`, `strict`, `replace`, or a function: `call` adds `(A B C)` to the text and goes on, `stop` stops
with the message `A B C`, where A is the malformation's length, B that of the input from it on, C that of the text so far, in bytes.
`--exhaustive` is the length of all lists of the bytes of octets.py.

Each difference is put under the rule of rules.py or trees.py that explains it; those that none explains are shown, and make the exit
status 1.
"""
import argparse, collections, itertools, os, random, subprocess, sys, tempfile

import octets, rules, shapes, trees

BATCH = 5000

PIECES = ["a", "b", "1", "true", "~", "-", "- ", "? ", "?", ": ", ":", ",", "[", "]", "{", "}", "#", " #c", "&a", "*a", "&b ", "*b ",
          "!", "!!str ", "!t ", "!<x> ", "|", ">", "|-", "|+", ">-", "|2", "'", '"', "''", "\\n", "\\", "\\x41", "\\u00e9", "%", "%YAML 1.2\n", "%TAG !t! x:\n",
          "@", "`", " ", "  ", "    ", "\t", "\n", "\n", "\n  ", "\n ", "\r\n", "\r", "---", "--- ", "...", "---\n", "\n---\n", "\n...\n", "\u00e9", "\u2028", "\x85", "\ufeff", "\ud7ff", "\x00", "a: b", "- a", "k:\n", "\n- ", "\n? ", "\n: "]

ROWS = ["", "---", "&a", '{"k"\n:1,"b":[true,null,1e400,-0]}', "---\na:\n# note\n     - 1\n\n     - 2\n", "--- |\na\n---\nb\n", "[a: [b, c]]", "[? : x]", "[? ]",
        "a: 1\na: 2", "a: 1\na: 2\nb: [", "&a [*a]", "a: b\x00c: d", "%TAG !prefix! tag:example.com,2011:\n--- !prefix!A\na: b\n--- !prefix!B\nc: d\n",
        "%TAG !a! x:\n%TAG !b! y:\n--- [!a!p 1, !b!q 2]", "%FOO bar\n--- a", "!<tag:x%C3%A9> a", "!<%C0%80> a", "\n# syntax error\nscalar\nkey: [1, 2]]\nkey1:a2\n",
        '"abc', "{a: 1", '"a  \n  b\n\n c\\\n   d"', ">\n a\n b\n\n c\n  d\n e\n", "a: |-\n                  a\n                      b\n", "key:\n- item 1\n- item 2\n",
        "---\r\n- tok1\r\n- tok2", "a1: &DEFAULT\n    b1: 4\n    b2: d\na2: *DEFAULT\n", "[a: b, c: [d: e], {f: g}]", "-\n-", "? a", ": b", "s:\n  - server:\n    about: x",
        "a: 1\n- b", "- a\nb", "a:\t- b", "- |1\n  x\n", "|+\na\n\n", ">-\na\n\n", "|0", "|\n\ta", "a: |\n  \u00e9\u00e9\nb: 1", "{a: :b}", "{\n  ? foo :,\n  : bar,\n}", "a:,b",
        "'it''s'", '"\\x41\\u00e9\\U0001F600"', "a\n b\n\n c", '["\u00e9", 1]', '"foo" l', '"a\n---\nb"', '"\\q"', "----", "--- #here\n", "--- a\n... b", "!!int &x 5", "[!!int 0x2A, !!float 12]",
        "{a: [b, {c: d}], e: f}\n", "- - a\n  - b\n-  c: d\n   e: f\n", "a: &x !t b\n? &y c\n: - d\n", "key: >2-\n    x\n  y\n\n   z\n\n", "a: 'b\n  c\n\n  d'\n", "# c\n\n%YAML 1.1\n---\nx\n...\n---\ny\n"]

def short(r): return "".join(r.choice(PIECES) for _ in range(r.randint(1, 7)))

def mutated(r):
    t = list(r.choice(ROWS))
    for _ in range(r.randint(1, 3)):
        i = r.randint(0, len(t))
        k = r.random()
        if k < 0.4: t[i:i] = list(r.choice(PIECES))
        elif k < 0.7 and t: del t[min(i, len(t) - 1)]
        elif t: t[min(i, len(t) - 1)] = r.choice(PIECES)
    return "".join(t)

def node(r, d, c):
    k = r.random()
    if d == 0 or k < 0.35:
        return r.choice([" a b", " 'x y'", ' "q\\t"', " 12", " ~", " [a, b: c, {d: e}]", " {x: [1], 'y': 2}", " &n z", " !!str 5", "", " |\n" + " " * (c + 2) + "l1\n" + " " * (c + 3) + "l2\n", " >-\n" + " " * (c + 2) + "f1\n" + " " * (c + 2) + "f2\n\n" + " " * (c + 2) + "f3\n"])
    s = c + r.randint(1, 3)
    gap = r.choice(["", "", "\n", "\n# c\n", "\n" + " " * r.randint(0, 5) + "# d\n"])
    head = "\n" if not gap else gap if gap.endswith("\n") else gap + "\n"
    rows = []
    for i in range(r.randint(1, 3)):
        if k < 0.65: rows.append(" " * s + "-" + node(r, d - 1, s))
        else: rows.append(" " * s + r.choice(["k%d" % i, "'q%d'" % i, "? c%d\n" % i + " " * s]) + ":" + node(r, d - 1, s))
    return head + "\n".join(x.rstrip("\n") for x in rows)

def longer(r):
    out = []
    for _ in range(r.randint(1, 2)):
        out.append("---" + node(r, r.randint(1, 4), -1))
    return "\n".join(out) + r.choice(["", "\n", "\n...\n"])

GAPS = ["", "", "", "", " ", "  ", "\n", "\r\n", "\n\t", "\n  "]
JSON_PIECES = ["a", "Z", " ", "#", ": ", "- ", ",", "]", "'", "%", "\u00e9", "\x85", "\u2028", "\ufeff", "\U0001f600", '\\"', "\\\\", "\\/", "\\b", "\\n", "\\t", "\\u00e9", "\\u0041", "\\uFFFD"]

def json_string(r, mark=""): return '"' + "".join(r.choice(JSON_PIECES) for _ in range(r.randint(0, 5))) + mark + '"'

def json_value(r, depth):
    k = r.random()
    if depth == 0 or k < 0.4:
        return r.choice(["true", "false", "null", "0", "-0", "17", "-3.25", "1e400", "2E+3", "9223372036854775808", json_string(r), json_string(r)])
    gap = lambda: r.choice(GAPS)
    n = r.randint(0, 4)
    if k < 0.7: return "[" + gap() + ("," + gap()).join(json_value(r, depth - 1) + gap() for _ in range(n)) + "]"
    return "{" + gap() + ("," + gap()).join(json_string(r, str(i)) + gap() + ":" + gap() + json_value(r, depth - 1) + gap() for i in range(n)) + "}"

def json_text(r): return r.choice(GAPS) + json_value(r, 4) + r.choice(GAPS)

SHORT = "a-?:,[]{}#&*!|>'\"% \t\n"

def exhaustive(length):
    """All texts of up to so many characters of SHORT."""
    for n in range(1, length + 1):
        for letters in itertools.product(SHORT, repeat=n): yield "".join(letters)

def generated(seed, count):
    r = random.Random(seed)
    for i in range(count): yield ROWS[i] if i < len(ROWS) else make(r, i)

def json_texts(seed, count):
    r = random.Random(seed)
    for _ in range(count): yield json_text(r)

def shaped(seed, count):
    r = random.Random(seed)
    for _ in range(count): yield shapes.generated(r)

def flow_trees(seed, count):
    r = random.Random(seed)
    for _ in range(count): yield trees.flow(trees.made(r, 4))

def byte_lists(length, seed, count):
    yield from octets.exhaustive(length)
    r = random.Random(seed)
    for _ in range(count): yield octets.seeded(r)

def batches(texts):
    texts = iter(texts)
    while batch := list(itertools.islice(texts, BATCH)): yield batch

def make(r, i): return [short, mutated, longer, short, mutated][i % 5](r)

def answers(cmd, paths, env=None):
    out = subprocess.run(cmd, input="\n".join(paths) + "\n", capture_output=True, text=True, errors="surrogateescape", env=env).stdout
    got, cur = {}, None
    for line in out.removesuffix("\n").split("\n"):
        if line.startswith("== "):
            cur = line[3:]; got[cur] = []
        elif cur is not None: got[cur].append(line)
    return got

def first_lines(ours, theirs):
    for i in range(max(len(ours), len(theirs))):
        x = ours[i] if i < len(ours) else "(end)"; y = theirs[i] if i < len(theirs) else "(end)"
        if x != y: return "   ours:   %s\n   theirs: %s" % (x, y)
    return ""

def written(texts, directory):
    """The paths of files with these texts or bytes."""
    paths = []
    for i, text in enumerate(texts):
        paths.append(os.path.join(directory, "%07d" % i))
        with open(paths[-1], "wb") as f: f.write(text if isinstance(text, bytes) else text.encode("utf-8", "ignore"))
    return paths

def both(a, words, paths):
    return answers([a.ours, *words], paths), answers([a.theirs, "batch", *words], paths)

def differing(a, texts, paths):
    """The differences of tokens or events: of each path its text, its name or None, and the first lines that differ."""
    ours, theirs = both(a, ["tokens"], paths)
    found = {}
    for q, text in zip(paths, texts):
        if ours.get(q) != theirs.get(q):
            found[q] = (text, rules.explain_tokens(text, ours.get(q, []), theirs.get(q, [])), first_lines(ours.get(q, []), theirs.get(q, [])))
    if a.command == "tokens": return found
    explained = {q: name for q, (_, name, _) in found.items()}
    # An index stands in no event's line, but in a fault's of the loader.
    tokens, found = ours, found if a.command == "dumps" else {}
    ours, theirs = both(a, ["events"], paths)
    for q, text in zip(paths, texts):
        if ours.get(q) != theirs.get(q):
            name = explained[q] if q in explained else rules.explain_events(text, ours.get(q, []), theirs.get(q, []), tokens.get(q, []))
            found[q] = (text, name, first_lines(ours.get(q, []), theirs.get(q, [])))
    return found

SETTINGS = [(spread, multiline) for spread in (False, True) for multiline in (False, True)]

def differing_dumps(a, texts, paths):
    """The same of trees and their dumps in four settings, and of trees that aren't those of their dumps."""
    ours, theirs = both(a, ["debug"], paths)
    loaded, found, unlike = {}, {}, []
    for q, text in zip(paths, texts):
        mine, other = trees.answer(ours.get(q, [])), trees.answer(theirs.get(q, []))
        if mine != other: unlike.append((q, text))
        elif isinstance(mine, list): loaded[q] = (text, mine)
    names = differing(a, [t for _, t in unlike], [q for q, _ in unlike])
    for q, text in unlike:
        name = trees.explain_trees(trees.answer(ours.get(q, [])), trees.answer(theirs.get(q, [])))
        found[q] = names.get(q, (text, name, first_lines(ours.get(q, []), theirs.get(q, []))))
    for spread, multiline in SETTINGS:
        words = ["dump"] + ["--spread"] * spread + ["--multiline"] * multiline
        ours, theirs = both(a, words, list(loaded))
        for q, (text, documents) in loaded.items():
            if ours.get(q) != theirs.get(q):
                mine, other = ("".join(line + "\n" for line in lines.get(q, [])) for lines in (ours, theirs))
                name = trees.explain(documents, spread, multiline, mine, other)
                if not found.get(q, ("", "", ""))[1] is None: found[q] = (text, name, first_lines(ours.get(q, []), theirs.get(q, [])))
        if a.trees: found.update(not_loaded_back(a, loaded, ours))
    return found

def not_loaded_back(a, loaded, dumps):
    found = {}
    for line_end in ("\n", "\r\n"):
        with tempfile.TemporaryDirectory() as d:
            texts = [line_end.join(dumps[q]) for q in loaded]
            back = answers([a.ours, "debug"], written(texts, d))
            for q, lines in zip(loaded, (back[p] for p in sorted(back))):
                text, documents = loaded[q]
                if trees.answer(lines) != documents and not any(trees.has(t, ("bad", "alias")) for t in documents):
                    found[q] = (text, None, "   its dump loads as: %s" % lines)
    return found

def differing_decodings(a, lists, paths):
    """The same of bytes, which no departure explains."""
    found = {}
    for trap in octets.TRAPS:
        ours, theirs = answers([a.ours, "decode", trap], paths), answers([a.theirs, "decode", trap], paths)
        for q, units in zip(paths, lists):
            if trees.answer(ours.get(q, [])) != trees.answer(theirs.get(q, [])):
                found[q] = ("%s of %s" % (trap, units.hex(" ")), None, first_lines(ours.get(q, []), theirs.get(q, [])))
    return found

COMPARED = {"tokens": differing, "events": differing, "dumps": differing_dumps, "decoding": differing_decodings}

def main():
    p = argparse.ArgumentParser()
    p.add_argument("ours"); p.add_argument("theirs"); p.add_argument("command", choices=list(COMPARED))
    p.add_argument("--seed", type=int, default=1); p.add_argument("--count", type=int, default=5000); p.add_argument("--exhaustive", type=int, default=0)
    p.add_argument("--json", type=int, default=0); p.add_argument("--shapes", type=int, default=0); p.add_argument("--trees", type=int, default=0)
    p.add_argument("--show", type=int, default=10)
    a = p.parse_args()
    for program in (a.ours, a.theirs):
        if not os.access(program, os.X_OK):
            print("compare.py: %s is not a program: build it first" % program, file=sys.stderr)
            return 2
    sources = byte_lists(a.exhaustive, a.seed, a.count) if a.command == "decoding" else itertools.chain(
        exhaustive(a.exhaustive), generated(a.seed, a.count), json_texts(a.seed, a.json), shaped(a.seed, a.shapes), flow_trees(a.seed, a.trees))
    names, unexplained, done = collections.Counter(), [], 0
    for texts in batches(sources):
        with tempfile.TemporaryDirectory() as d:
            for text, name, lines in COMPARED[a.command](a, texts, written(texts, d)).values():
                if name: names[name] += 1
                else: unexplained.append((text, lines))
        done += len(texts)
    print("%d inputs, %s: %d differ" % (done, a.command, sum(names.values()) + len(unexplained)))
    for name, count in names.most_common(): print("%8d  %s" % (count, name))
    print("%8d  not explained" % len(unexplained))
    for text, lines in unexplained[: a.show]: print(repr(text)); print(lines)
    return 1 if unexplained else 0

if __name__ == "__main__": sys.exit(main())
