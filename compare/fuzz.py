#!/usr/bin/env python3
"""Throws seeded texts at this library, and holds each answer against the original's.

usage: fuzz.py OURS THEIRS [--seed N] [--count N] [--show N]

OURS is `yamlbatch`; THEIRS prints the same lines for `THEIRS batch tokens|events|debug|dump [--spread] [--multiline]`. The texts are those
of compare.py: short ones, mutated rows, made documents, JSON texts, shapes of real files; one of each hundred is a piece repeated to 20,000
characters. Of each text it is checked that

- OURS ends with status 0: no signal, nothing refused;
- OURS takes at most TEXT + CHARACTER · its length of processor time for its events, and for its trees;
- tokens, events and trees are those of THEIRS, or a rule of rules.py explains the difference;
- its dump in each of the four settings is that of THEIRS, or explained by trees.py, and loads as the same trees.

Before these come every beginning of each row of compare.py, and every beginning of lists of bytes, with each trap, which is answered.

The last line is `clean` or counts what was found; then the exit status is 1. With the same seed and count the texts are the same.
"""
import argparse, collections, itertools, os, random, re, subprocess, sys, tempfile

import compare, octets, rules, shapes, trees

GROWN = 20000
TEXT, CHARACTER = 400e-6, 4e-6
KEY = 1024
SHOWN = 1000

KINDS = [compare.short, compare.mutated, compare.longer, compare.mutated, compare.short, compare.json_text, shapes.generated, compare.mutated]


def grown(r):
    """A piece repeated, after another one and before a third."""
    piece = compare.short(r)
    return r.choice(["", "", compare.short(r)]) + piece * (GROWN // len(piece)) + r.choice(["", "", compare.short(r)])


def beginnings():
    """Every beginning of each row of compare.py."""
    return (row[:n] for row in compare.ROWS for n in range(len(row) + 1))


OCTETS = [b"---\na\xa9: 1\nb: 2.2\nc: [1, 2]\n", b"\xff\xfe\x00\xd8a\x00", b"\x00a", b"a\xff", b"\xe2\x82A", b"\xe0\x80A", b"\xef\xbb\xbfa\xff", b"\xff\xfea\x00b", b"\xff\xfe\x00\xd8a",
          b"\xff\xfe\x00\xd8\x01\xd8\x00\xdc", b"\xef\xbb\xbf---\na: 1\n"] + [mark + "---\na: 1\nb: 2.2\nc: [1, 2]\n".encode(code) for mark, code in
          [(b"\xff\xfe", "utf-16-le"), (b"", "utf-16-le"), (b"\xfe\xff", "utf-16-be"), (b"", "utf-16-be")]]


def texts(seed, count):
    r = random.Random(seed)
    for i in range(count):
        yield grown(r) if i % 100 == 99 else KINDS[i % len(KINDS)](r)


INTEGER = re.compile(r"[+-]?[0-9]+")


def is_written(tree):
    """Whether a dump of the tree is promised to load back: no bad value, no alias, no real that reads as an integer, as that of
    `!!float 12`, and no scalar key that takes more than 1024 characters, which no simple key may."""
    kind, it = tree
    if kind == "array":
        return all(map(is_written, it))
    if kind == "hash":
        return all(is_written(k) and is_written(v) and len(trees.as_key(k)) <= KEY for k, v in it)
    if kind == "real":
        return not (INTEGER.fullmatch(it) and -2**63 <= int(it) < 2**63)
    return kind not in ("bad", "alias")


class Fault(Exception):
    """A run that ended badly or took too long."""


def run(command, paths):
    """The lines of each path, and the processor time."""
    with tempfile.TemporaryFile() as given, tempfile.TemporaryFile() as out:
        given.write(("\n".join(paths) + "\n").encode())
        given.seek(0)
        process = subprocess.Popen(command, stdin=given, stdout=out, stderr=subprocess.DEVNULL)
        _, status, used = os.wait4(process.pid, 0)
        process.returncode = status
        out.seek(0)
        lines = out.read().decode("utf-8", "surrogateescape")
    if status:
        raise Fault("signal %d" % (status & 127) if status & 127 else "status %d" % (status >> 8))
    found = {}
    for part in ("\n" + lines.removesuffix("\n")).split("\n== ")[1:]:
        path, *found[path] = part.split("\n")
    return found, used.ru_utime + used.ru_stime


def bounded(command, paths):
    """The same; a fault where the time is over the bound."""
    found, seconds = run(command, paths)
    bound = 0.02 + sum(TEXT + CHARACTER * os.path.getsize(p) for p in paths)
    if seconds > bound:
        raise Fault("%.3f s, of %.3f s" % (seconds, bound))
    return found


class Fuzz:
    def __init__(self, ours, theirs):
        self.ours, self.theirs = ours, theirs
        self.names, self.found = collections.Counter(), []
        self.loaded = self.dumped = self.characters = 0

    def asked(self, words, paths, texts):
        """Our lines of each path. What ends badly is noted, found by halves, and left out."""
        try:
            return bounded([self.ours, *words], paths)
        except Fault as fault:
            if len(paths) == 1:
                self.found.append((texts[0], "%s: %s" % (" ".join(words), fault)))
                return {}
            half = len(paths) // 2
            return {**self.asked(words, paths[:half], texts[:half]), **self.asked(words, paths[half:], texts[half:])}

    def octets(self, directory):
        """Every beginning of each list of bytes, with each trap, is answered."""
        lists = [units[:n] for units in OCTETS for n in range(len(units) + 1)]
        paths = compare.written(lists, directory)
        for trap in octets.TRAPS:
            lines = self.asked(["decode", trap], paths, lists)
            self.found += [(units, "decode %s: no answer" % trap) for q, units in zip(paths, lists) if q not in lines]

    def note(self, text, name, ours, theirs, what):
        if name:
            self.names[name] += 1
        else:
            self.found.append((text, what + "\n" + compare.first_lines(ours, theirs)))

    def batch(self, texts, directory):
        paths = compare.written(texts, directory)
        of = dict(zip(paths, texts))
        self.characters += sum(map(len, texts))
        explained = self.events(of)
        # An alias of a repeated piece doubles its tree, text for text.
        self.trees({q: t for q, t in of.items() if not (len(t) >= GROWN // 2 and "*" in t)}, explained)

    def events(self, of):
        """Compares tokens and events; the names of what differs by path."""
        paths, texts = list(of), list(of.values())
        ours = {c: self.asked([c], paths, texts) for c in ("tokens", "events")}
        theirs = {c: run([self.theirs, "batch", c], paths)[0] for c in ("tokens", "events")}
        explained = {}
        for q, text in of.items():
            both = {c: (ours[c].get(q), theirs[c].get(q, [])) for c in ours}
            if any(mine is None for mine, _ in both.values()):
                explained[q] = "noted"
            elif both["tokens"][0] != both["tokens"][1]:
                explained[q] = rules.explain_tokens(text, *both["tokens"])
                self.note(text, explained[q], *both["tokens"], "tokens")
            elif both["events"][0] != both["events"][1]:
                explained[q] = rules.explain_events(text, *both["events"], both["tokens"][0])
                self.note(text, explained[q], *both["events"], "events")
        return explained

    def trees(self, of, explained):
        ours = self.asked(["debug"], list(of), list(of.values()))
        theirs = run([self.theirs, "batch", "debug"], list(of))[0]
        same = {}
        for q, text in of.items():
            mine, other = ours.get(q), theirs.get(q, [])
            if mine is None:
                continue
            is_fault = bool(mine) and mine[-1].startswith("ERR ")
            if mine != other and q not in explained and (is_fault or trees.answer(mine) != trees.answer(other)):
                name = trees.explain_trees(trees.answer(mine), trees.answer(other))
                self.note(text, name, mine, other, "trees")
                explained[q] = name
            elif not is_fault:
                same[q] = mine
        self.loaded += len(same)
        for spread, multiline in compare.SETTINGS:
            self.dumps(of, same, explained, spread, multiline)

    def dumps(self, of, loaded, explained, spread, multiline):
        words = ["dump"] + ["--spread"] * spread + ["--multiline"] * multiline
        ours = self.asked(words, list(loaded), [of[q] for q in loaded])
        theirs = run([self.theirs, "batch", *words], list(loaded))[0]
        for q, lines in ours.items():
            if lines != theirs.get(q, []) and q not in explained:
                mine, other = ("".join(line + "\n" for line in x) for x in (lines, theirs.get(q, [])))
                self.note(of[q], trees.explain(trees.answer(loaded[q]), spread, multiline, mine, other), lines, theirs.get(q, []), " ".join(words))
        with tempfile.TemporaryDirectory() as directory:
            back = dict(zip(compare.written(["\n".join(ours[q]) for q in ours], directory), ours))
            lines = self.asked(["debug"], list(back), [of[q] for q in back.values()])
        self.dumped += len(lines)
        for path, q in back.items():
            if path in lines and lines[path] != loaded[q] and all(map(is_written, trees.answer(loaded[q]))):
                self.note(of[q], None, loaded[q], lines[path], " ".join(words) + " loads as other trees")


def main():
    p = argparse.ArgumentParser()
    p.add_argument("ours"); p.add_argument("theirs")
    p.add_argument("--seed", type=int, default=1); p.add_argument("--count", type=int, default=100000); p.add_argument("--show", type=int, default=10)
    a = p.parse_args()
    for program in (a.ours, a.theirs):
        if not os.access(program, os.X_OK):
            print("fuzz.py: %s is not a program: build it first" % program, file=sys.stderr)
            return 2
    fuzz, done = Fuzz(a.ours, a.theirs), 0
    with tempfile.TemporaryDirectory() as directory:
        fuzz.octets(directory)
    for batch in compare.batches(itertools.chain(beginnings(), texts(a.seed, a.count))):
        with tempfile.TemporaryDirectory() as directory:
            fuzz.batch(batch, directory)
        done += len(batch)
        print("%d texts, %d found" % (done, len(fuzz.found)), file=sys.stderr, flush=True)
    print("seed %d: %d texts of %d characters, %d load, %d dumps of them load back" % (a.seed, done, fuzz.characters, fuzz.loaded, fuzz.dumped))
    for name, count in fuzz.names.most_common(): print("%8d  %s" % (count, name))
    for text, what in fuzz.found[: a.show]: print(repr(text if len(text) < 300 else text[:150] + " .. " + text[-150:])); print(what[:SHOWN])
    print("%d found" % len(fuzz.found) if fuzz.found else "clean")
    return 1 if fuzz.found else 0


if __name__ == "__main__": sys.exit(main())
