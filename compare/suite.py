#!/usr/bin/env python3
"""Runs a checkout of the public YAML test suite (its data layout: a folder a case).

usage: suite.py SUITE YAMLTOOL [--show]

A case is a folder at or below SUITE with `in.yaml`, `test.event` (the expected events), and `error` where the text is to be refused.
`YAMLTOOL events FILE` prints a line for each event and ends with status 0, or with 1 where the text is refused. Of a text that is to be
read the events are compared: their kinds, values, styles, anchors by number, and tags. How a document's start and end and a
collection's style are written is no part of our events. Prints the cases that fail, and how many passed and failed; --show prints the
first lines that differ. The exit status is 1 if a case fails.
"""
import argparse, os, re, subprocess, sys

PROPERTIES = re.compile(r"^(\+SEQ|\+MAP|=VAL|=ALI)((?: (?:\[\]|\{\}))?)((?: &\S+)?)((?: <[^>]*>)?)(?: (.*))?$", re.S)
STYLES = {":": "plain", "'": "single", '"': "double", "|": "literal", ">": "folded"}
NAMES = {"+STR": "StreamStart", "-STR": "StreamEnd", "+DOC": "DocumentStart", "-DOC": "DocumentEnd", "-SEQ": "SequenceEnd", "-MAP": "MappingEnd"}
SHORT = {"n": "\n", "t": "\t", "r": "\r", "b": "\b", "f": "\f", "\\": "\\", '"': '"'}
OUR_LINE = re.compile(r'^(\w+) \d+:\d+(?: \*(\d+))?(?: &(\d+))?(?: tag "((?:[^"\\]|\\.)*)" "((?:[^"\\]|\\.)*)")?(?: (plain|single|double|literal|folded) "(.*)")?$', re.S)


def unescaped(text):
    return re.sub(r"\\(?:u([0-9a-f]{4})|(.))", lambda m: chr(int(m[1], 16)) if m[1] else SHORT.get(m[2], m[2]), text)


def expected(lines):
    """The events of test.event: a name, an alias's or an anchor's number, a tag, a style and a value."""
    events, numbers, count = [], {}, 0
    for line in lines:
        name = NAMES.get(line[:4])
        if name:
            events.append((name,))
            continue
        m = PROPERTIES.match(line)
        kind, rest = m[1], m[5] or ""
        if kind == "=ALI":
            events.append(("Alias", numbers[rest[1:]]))
            continue
        anchor, tag = 0, m[4][2:-1] if m[4] else None
        if m[3]:
            count += 1
            anchor = numbers[m[3][2:]] = count
        if kind == "=VAL":
            events.append(("Scalar", anchor, tag, STYLES[rest[0]], unescaped(rest[1:])))
        else:
            events.append((("SequenceStart" if kind == "+SEQ" else "MappingStart"), anchor, tag))
    return events


def ours(lines):
    events = []
    for line in lines:
        m = OUR_LINE.match(line)
        tag = None if m[4] is None else unescaped(m[4]) + unescaped(m[5])
        if m[1] == "Alias":
            events.append(("Alias", int(m[2])))
        elif m[1] == "Scalar":
            events.append(("Scalar", int(m[3] or 0), tag, m[6], unescaped(m[7])))
        elif m[1] in ("SequenceStart", "MappingStart"):
            events.append((m[1], int(m[3] or 0), tag))
        else:
            events.append((m[1],))
    return events


def failure(folder, tool):
    """Why a case fails, or None."""
    try:
        ran = subprocess.run([tool, "events", os.path.join(folder, "in.yaml")], capture_output=True, timeout=60)
    except subprocess.TimeoutExpired:
        return "no answer"
    if os.path.exists(os.path.join(folder, "error")):
        return None if ran.returncode == 1 else "it is to be refused, and is read"
    if ran.returncode != 0:
        return "it is to be read, and is refused: " + ran.stderr.decode("utf-8", "replace").strip()
    with open(os.path.join(folder, "test.event"), encoding="utf-8", newline="\n") as f:
        want = expected(f.read().rstrip("\n").split("\n"))
    got = ours(ran.stdout.decode("utf-8").rstrip("\n").split("\n"))
    for x, y in zip(want + [None], got + [None]):
        if x != y:
            return "expected %s, got %s" % (x, y)
    return None


def cases(suite):
    for folder, _, files in sorted(os.walk(suite, followlinks=False)):
        if "in.yaml" in files and "test.event" in files:
            yield folder


def main():
    p = argparse.ArgumentParser()
    p.add_argument("suite"); p.add_argument("yamltool"); p.add_argument("--show", action="store_true")
    a = p.parse_args()
    passed, failed = 0, 0
    for folder in cases(a.suite):
        why = failure(folder, a.yamltool)
        if why is None:
            passed += 1
            continue
        failed += 1
        print(os.path.relpath(folder, a.suite) + (": " + why if a.show else ""))
    print("%d passed, %d failed" % (passed, failed))
    return 1 if failed or not passed else 0


if __name__ == "__main__":
    sys.exit(main())
