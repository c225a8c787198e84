#!/usr/bin/env python3
"""Counts the instructions of loads and other calls in two built checkouts, on inputs that a faster way may make cases, and prints a table.

usage: cases.py OLD NEW [MORE ..] [--bytes N] [--only WORD]

Each text has nothing but what its row names. Instructions are counted by valgrind: those of two rounds less those of one, for each byte of
the text, or for each key of a hash. The last column is the last checkout's number beside the first's. Build the static library first in
each checkout, `cd crates/yamlbench && rt lib`, where an older one gets crates/yamlbench and its line of crates.txt from this one.
"""
import argparse, os, random, subprocess, sys, tempfile

from dumps import counted

HERE = os.path.dirname(os.path.abspath(__file__))
WORDS = "alpha beta gamma delta server client port path name value region cache limit".split()


def repeated(lines, size):
    """Lines one after another, again and again, for about so many bytes."""
    out, length, i = [], 0, 0
    while length < size:
        out.append(lines[i % len(lines)])
        length += len(out[-1])
        i += 1
    return "".join(out)


def items(*words, end="\n"):
    return lambda size: repeated(["- %s%s" % (word, end) for word in words], size)


def lines(*words):
    return lambda size: repeated([word + "\n" for word in words], size)


def records(size, last=""):
    r = random.Random(1)
    def record(i): return '{"id": %d, "name": "%s", "path": "%s/%s", "on": true, "tags": ["%s", "%s"]}' % (i, *(r.choice(WORDS) for _ in range(5)))
    rows = [record(i) for i in range(size // 90)]
    return "[" + ",\n".join(rows) + ("," + last + record(0) if last else "") + "]\n"


def strings(size, last):
    r = random.Random(2)
    return "[" + ", ".join('"%s"' % r.choice(WORDS) for _ in range(size // 9)) + ", " + last + "]\n"


def escapes(size, last):
    return "[" + ", ".join('"' + "\\u0436" * 6 + '"' for _ in range(size // 40)) + ", " + last + "]\n"


def shuffled(size, last):
    keys = list(range(size // 16))
    random.Random(3).shuffle(keys)
    return "{" + ", ".join('"key%05d": %d' % (k, k % 1000) for k in keys) + ", " + last + "}\n"


NAMES = ["%s%d" % (WORDS[i % 13], i) for i in range(5000)]


def pairs(value, key="%s: %s\n"):
    return lambda size: repeated([key % (name, value(i)) for i, name in enumerate(NAMES)], size)


def some(count):
    return lambda i: " ".join((WORDS * 2)[i % 13:i % 13 + count])


# Texts that begin as JSON, and end otherwise or as they begin.
JSON = {
    "strings, the last one bare": lambda n: strings(n, "bare"),
    "records, then a second document": lambda n: records(n) + "---\n[1]\n",
    "records, a TAB before the last": lambda n: records(n, "\t"),
    "records, a comment before the last": lambda n: records(n, " # last\n"),
    "escapes, at the end a pair of surrogates": lambda n: escapes(n, '"\\ud83d\\ude00"'),
    "an object of shuffled keys, the last one bare": lambda n: shuffled(n, "bare: 1"),
    "an object of shuffled keys, the last one twice": lambda n: shuffled(n, '"key00000": 1'),
    "strings": lambda n: strings(n, '"last"'),
    "records": records,
    "escapes": lambda n: escapes(n, '"last"'),
    "numbers": lambda n: "[" + repeated(["12, ", "-3.5, ", "170000, "], n) + "1]\n",
    "an object of shuffled keys": lambda n: shuffled(n, '"last": 1'),
}
# Items of a sequence, and other short lines.
LINES = {
    "`00:1a:2b:3c:4d:10`": items("00:1a:2b:3c:4d:10", "5e:00:53:af:00:07"),
    "`std::vec::Vec`": items("std::vec::Vec", "std::io::Read"),
    "`AWS::S3::Bucket`": items("AWS::S3::Bucket", "AWS::EC2::Subnet"),
    "`12:30:45`": items("12:30:45", "08:05:59"),
    "`fe80::1ff:fe23:4567`": items("fe80::1ff:fe23:4567", "2001:db8::8a2e:370:7334"),
    "`b:b:b`": items("b:b:b"),
    "`http://example.org/a/b`": items("http://example.org/a/b", "https://example.org/index.html"),
    "`'\\s+'`": items(r"'\s+'"),
    "`'\\.js$'`": items(r"'\.js$'"),
    "`'\\d+\\s*\\w+\\.7'`": items(r"'\d+\s*\w+\.7'"),
    "`'it''s'`": items("'it''s'"),
    "`''`": items("''"),
    "`\"a\\tb\\tc\\td\"`": items(r'"a\tb\tc\td"'),
    "`a  b  c  d  e  f`": items("a  b  c  d  e  f"),
    "comments: `#`": lines("#"),
    "comments: `# a`": lines("# a"),
    "comments of eight words": lines("# " + " ".join(WORDS[:8])),
    "empty lines at the beginning": lambda n: "\n" * n + "a\n",
    "empty lines after the beginning": lambda n: "a: 1\n" + "\n" * n + "b: 2\n",
    "single words": items(*WORDS),
    "single words, CR LF": items(*WORDS, end="\r\n"),
    "single words, a comment after each": items(*(word + " # x" for word in WORDS)),
    "single words, an empty line after each": items(*WORDS, end="\n\n"),
    "eight words": items(" ".join(WORDS[:8])),
    "eight words in double quotes": items('"' + " ".join(WORDS[:8]) + '"'),
    "eight words in single quotes": items("'" + " ".join(WORDS[:8]) + "'"),
    "words with t, f, n first": items("total", "false friend", "nothing", "True north"),
    "integers": items("12345", "-7", "170000"),
    "dates": items("2024-01-05", "2023-12-31"),
    "`[a, b, c]`": items("[alpha, beta, gamma]"),
    "`key: word`": items(*("%s: %s" % (a, b) for a, b in zip(WORDS, WORDS[1:]))),
    "literal blocks": lambda n: repeated(["- |\n  alpha beta gamma delta\n  server client\n"], n),
    "literal blocks, CR LF": lambda n: repeated(["- |\r\n  alpha beta gamma delta\r\n  server client\r\n"], n),
    "plain scalars over lines that stand deep": lambda n: repeated(["- alpha beta\n          gamma delta\n          server client\n"], n),
}
# One mapping.
PAIRS = {
    "a key and a word": pairs(lambda i: WORDS[i % 13]),
    "a key and three words": pairs(some(3)),
    "a key and fourteen words": pairs(some(14)),
    "a key and three words, CR LF": pairs(some(3), "%s: %s\r\n"),
    "a key and a number": pairs(lambda i: "%d" % (i * 37)),
    "a key and three words in double quotes": pairs(lambda i: '"%s"' % some(3)(i)),
    "a key and four words of Cyrillic": pairs(lambda i: "слово другое время человек"),
    "a key, and two words below it": pairs(some(2), "%s:\n  %s\n"),
    "a key and three words, a comment": pairs(some(3), "%s: %s # remark\n"),
    "small mappings of twelve keys": lambda n: repeated(["- " + "\n  ".join("%s%d: 1" % (WORDS[i], i) for i in range(12)) + "\n"], n),
}
LOADS = {**{"JSON: " + name: make for name, make in JSON.items()}, **LINES, **{"pairs: " + name: make for name, make in PAIRS.items()}}
# Of an iterator nothing is known but the next character.
ITERATED = ["eight words", "eight words in double quotes", "single words", "comments of eight words", "literal blocks", "pairs: a key and three words"]


def decoded(distance):
    """ASCII with a byte of Latin-1 at each such distance."""
    def make(size):
        plain = (" ".join(WORDS) * (distance // 60 + 2))[:distance - 1].encode()
        return (plain + b"\xe9") * (size // distance)
    return make


DECODES = {"Latin-1, one letter of %d outside ASCII" % d: decoded(d) for d in (1, 2, 3, 10, 20, 66, 100, 130, 200)}
DECODES["English"] = lambda n: repeated([" ".join(WORDS) + "\n"], n).encode()
DECODES["French"] = lambda n: repeated(["les élèves étaient déjà très occupés\n"], n).encode()
DECODES["UTF-16 of ASCII"] = lambda n: repeated([" ".join(WORDS) + "\n"], n).encode("utf-16")
DECODES["Cyrillic"] = lambda n: repeated(["слово другое время человек работа письмо\n"], n).encode()
# A hash of so many integers, which come in order or by steps, and what is done with each afterwards.
FILLS = {}
for count in (1, 4, 8, 9, 12, 14, 15, 16, 20, 24, 32, 100, 20000):
    for kind, bit in (("integers", 0), ("strings", 8)):
        for order, step in (("in order", 1), ("in no order", 37)):
            FILLS["a hash of %d %s, %s" % (count, kind, order)] = (count, step, bit)
for count in (4, 8, 12, 14, 15, 24, 20000):
    for deed, bit in (("put in again", 1), ("removed and put in again", 2), ("looked up", 4)):
        FILLS["a hash of %d integers in order, each %s" % (count, deed)] = (count, 1, bit)
# Dumps and JSON out: strings of so many characters, as they are and with escapes, and numbers.
WRITES = {"strings of %d characters" % n: (lambda n: lambda size: repeated(["- %s\n" % ("alphabetical order" * 3)[:n]], size))(n) for n in (1, 4, 8, 15, 17, 40)}
WRITES["strings of 8 characters with an escape"] = items(r'"alp\tabe"')
WRITES["strings of 15 characters in quotes"] = items('"- alphabetical"')
WRITES["integers"] = items("12345", "-7", "1234567890")
WRITES["arrays of one integer each"] = items("[1]")


def built(top, directory, n):
    """The program over a checkout's library."""
    library = os.path.join(top, "crates", "yamlbench", "out", "libyamlbench.a")
    if not os.path.exists(library):
        sys.exit("cases.py: no static library in %s: cd crates/yamlbench && rt lib" % top)
    kit = os.path.dirname(subprocess.run(["rt", "doc"], capture_output=True, text=True, check=True).stdout.split()[0])
    program = os.path.join(directory, "cases%d" % n)
    subprocess.run(["gcc", "-O2", "-o", program, os.path.join(HERE, "cases.c"), library, os.path.join(kit, "c", "liblibc_c.a")], check=True)
    return program


def a_round(command):
    one, two = [counted(command + [rounds])[0] for rounds in "12"]
    return two - one


def rows(size, directory):
    """Each row's name, the words of its call, and the number by which its instructions are divided."""
    path = os.path.join(directory, "text")
    def written(text):
        text = text if isinstance(text, bytes) else text.encode()
        with open(path, "wb") as f:
            f.write(text)
        return len(text)
    for name, make in LOADS.items():
        yield "load: " + name, lambda make=make: (["load", path], written(make(size)))
    for name in ITERATED:
        yield "load of an iterator: " + name, lambda name=name: (["iter", path], written(LOADS[name](size)))
    for name, make in DECODES.items():
        for trap, word in (("Ignore", "0"), ("Replace", "1")):
            yield "decode, %s: %s" % (trap, name), lambda make=make, word=word: (["decode", path, word], written(make(size)))
    for deed in ("dump", "json"):
        for name, make in WRITES.items():
            yield "%s: %s" % (deed, name), lambda make=make, deed=deed: ([deed, path], written(make(size)))
    for name, (count, step, deed) in FILLS.items():
        yield name, lambda count=count, step=step, deed=deed: (["fill", str(count), str(step), str(deed)], count)


def main():
    p = argparse.ArgumentParser()
    p.add_argument("tops", nargs="+")
    p.add_argument("--bytes", type=int, default=100000)
    p.add_argument("--only")
    a = p.parse_args()
    if len(a.tops) < 2:
        sys.exit("cases.py: two checkouts are wanted")
    with tempfile.TemporaryDirectory() as directory:
        programs = [built(top, directory, n) for n, top in enumerate(a.tops)]
        print("| Input | %s | Last beside first |" % " | ".join(os.path.basename(os.path.abspath(top)) for top in a.tops))
        print("|---|%s---|" % ("---|" * len(a.tops)))
        for name, ready in rows(a.bytes, directory):
            if a.only and a.only not in name:
                continue
            words, parts = ready()
            numbers = [a_round([program, *words]) / parts for program in programs]
            print("| %s | %s | %+.1f |" % (name, " | ".join("%.1f" % number for number in numbers), (numbers[-1] / numbers[0] - 1) * 100), flush=True)


if __name__ == "__main__":
    main()
