#!/usr/bin/env python3
"""Holds what `yamljson` prints against Python's `json`.

usage: json_out.py YAMLJSON [--seed N] [--count N] [--faults N] [--show N]

Made values are written as YAML documents in many forms: block and flow collections, plain scalars, quoted ones and literal blocks. Of
each document it is checked that

- the line that `yamljson` prints is the text that `json.dumps` gives for the value, reals as they are written, and U+007F by an escape;
- `json.loads` reads that line as the value, and the text of `yamljson --indent` too;
- a document with a node that JSON cannot write gives the path of the first such node, its reason, and status 1, and prints nothing.

The last line is `clean` or counts what was found; then the exit status is 1. With the same seed and count the documents are the same.
"""
import argparse, json, os, random, re, subprocess, sys, tempfile

REALS = ["1.5", "-0.0", "0.25", "2.50", "1e5", "1E+5", "-12.50e-07", "1e400", "9223372036854775808", "-9223372036854775809", "0e1"]
INTEGERS = [("0", 0), ("-0", 0), ("7", 7), ("-12", -12), ("0x1F", 31), ("0o17", 15), ("+3", 3), ("9223372036854775807", 2**63 - 1),
            ("-9223372036854775808", -2**63)]
WORDS = [("~", None), ("null", None), ("true", True), ("True", True), ("FALSE", False), ("false", False)]
LETTERS = ["a", "b", "é", "\u2028", "日", "\U0001F600", " ", "'", '"', "\\", "/", "\n", "\t", "\r", "\x00", "\x01", "\x1f", "\x7f", "\x85", ":", "#", "-", "0", "{", "]"]
BAD_REALS = [".5", "5.", "+1.5", "01.5", ".inf", "-.Inf", ".nan", "1.e5", "-.5"]
BAD_KEYS = ["1", "~", "true", "1.5", "[a]", "{a: b}"]
NUMBER, KEY = "the number cannot be written in JSON", "a key is no string"


class Real(str):
    """A real, by its text."""


class Bad(str):
    """A real that JSON cannot write, by its text."""


class Hash:
    """A hash with a key that is no string, and string keys before and after it."""
    def __init__(self, before, key, after):
        self.before, self.key, self.after = before, key, after


# ---- values

def text(r):
    return "".join(r.choice(LETTERS) for _ in range(r.choice([0, 1, 2, 3, 5, 40])))


def keys(r, count):
    return list(dict.fromkeys(text(r) for _ in range(count)))


def value(r, depth):
    scalars = ["string", "string", "integer", "real", "word"]
    kind = r.choice(scalars + ["array", "hash"] * 4 if depth else scalars)
    if kind == "string":
        return text(r)
    if kind == "integer":
        return r.choice([r.choice(INTEGERS)[1], r.randrange(-2**63, 2**63)])
    if kind == "real":
        return Real(r.choice(REALS))
    if kind == "word":
        return r.choice(WORDS)[1]
    if kind == "array":
        return [value(r, depth - 1) for _ in range(r.randrange(4))]
    return {k: value(r, depth - 1) for k in keys(r, r.randrange(4))}


def with_fault(r, depth):
    """A value with a node that JSON cannot write."""
    kind = r.choice(["real", "key", "array", "hash"]) if depth else r.choice(["real", "key"])
    if kind == "real":
        return Bad(r.choice(BAD_REALS))
    if kind == "key":
        return Hash({k: value(r, 1) for k in keys(r, 2)}, r.choice(BAD_KEYS), {})
    if kind == "array":
        items = [value(r, 1) for _ in range(r.randrange(3))] + [with_fault(r, depth - 1)]
        return items + [r.choice([value, with_fault])(r, 0) for _ in range(r.randrange(2))]
    pairs = [(k, value(r, 1)) for k in keys(r, r.randrange(3))]
    return dict(pairs + [("the fault", with_fault(r, depth - 1))])


def first_fault(v):
    """The path and the reason of the first node that JSON cannot write."""
    if isinstance(v, Bad):
        return "", NUMBER
    if isinstance(v, Hash):
        return "", KEY
    for step, child in enumerate(v) if isinstance(v, list) else v.items() if isinstance(v, dict) else []:
        found = first_fault(child)
        if found:
            return "[" + string(step) + "]" + found[0], found[1]
    return None


# ---- values as JSON

def string(v):
    """A string or a number; U+007F has an escape in ours, and not in Python's."""
    return json.dumps(v, ensure_ascii=False).replace("\x7f", "\\u007f")


def compact(v):
    if isinstance(v, Real):
        return str(v)
    if isinstance(v, list):
        return "[" + ",".join(map(compact, v)) + "]"
    if isinstance(v, dict):
        return "{" + ",".join(compact(k) + ":" + compact(w) for k, w in v.items()) + "}"
    return string(v)


def indented(v, margin=0):
    if not isinstance(v, (list, dict)) or not v:
        return compact(v)
    inner = "\n" + " " * (margin + 2)
    if isinstance(v, list):
        return "[" + inner + ("," + inner).join(indented(w, margin + 2) for w in v) + "\n" + " " * margin + "]"
    return "{" + inner + ("," + inner).join(compact(k) + ": " + indented(w, margin + 2) for k, w in v.items()) + "\n" + " " * margin + "}"


def plain(v):
    """The value as `json.loads` gives it with `parse_float=str`."""
    if isinstance(v, Real):
        return int(v) if v.lstrip("-").isdigit() else str(v)
    if isinstance(v, list):
        return [plain(w) for w in v]
    if isinstance(v, dict):
        return {k: plain(w) for k, w in v.items()}
    return v


# ---- values as YAML

def quoted(r, s):
    if s and all(" " < c <= "~" for c in s) and r.random() < 0.5:
        return "'" + s.replace("'", "''") + "'"
    return json.dumps(s, ensure_ascii=r.random() < 0.5 and all(c <= "\uffff" for c in s))


def scalar(r, v):
    if isinstance(v, Real) or isinstance(v, Bad):
        return str(v)
    if isinstance(v, str):
        return v if v.isalpha() and v.isascii() and len(v) > 1 and r.random() < 0.5 and v.lower() not in ("true", "null") else quoted(r, v)
    forms = [form for form, is_value in (WORDS if v is None or isinstance(v, bool) else INTEGERS) if is_value is v or not isinstance(v, bool) and v is not None and is_value == v]
    return r.choice(forms) if forms else str(v)


def flow(r, v):
    if isinstance(v, list):
        return "[" + ", ".join(flow(r, w) for w in v) + "]"
    if isinstance(v, Hash):
        return "{" + ", ".join([quoted(r, k) + ": " + flow(r, w) for k, w in v.before.items()] + ["? " + v.key + " : x"]) + "}"
    if isinstance(v, dict):
        return "{" + ", ".join(quoted(r, k) + ": " + flow(r, w) for k, w in v.items()) + "}"
    return scalar(r, v)


def literal(s, column):
    """A literal block, where the text can be one."""
    lines = s.split("\n")
    if not s or any(c < " " and c != "\n" or c > "~" for c in s) or not lines[0].strip() or lines[0][0] == " " or s.endswith("\n\n"):
        return None
    keep = lines[:-1] if s.endswith("\n") else lines
    return ("|" if s.endswith("\n") else "|-") + "".join("\n" + (" " * column + l if l else "") for l in keep)


def block(r, v, column):
    """The lines of a value that follow its mark."""
    if isinstance(v, (list, dict)) and v and r.random() < 0.6:
        begin = "\n" + " " * column
        if isinstance(v, list):
            return "".join(begin + "-" + block(r, w, column + 2) for w in v)
        return "".join(begin + quoted(r, k) + ":" + block(r, w, column + 2) for k, w in v.items())
    if isinstance(v, str) and not isinstance(v, (Real, Bad)) and r.random() < 0.3 and literal(v, column):
        return " " + literal(v, column)
    return " " + flow(r, v)


def document(r, v):
    return "---" + block(r, v, 0 if isinstance(v, (list, dict)) else 1) + "\n"


# ---- the program

def ran(program, options, text):
    with tempfile.TemporaryDirectory() as folder:
        path = os.path.join(folder, "a.yaml")
        with open(path, "w", encoding="utf-8", newline="") as f:
            f.write(text)
        done = subprocess.run([program, *options, path], capture_output=True)
        return done.returncode, done.stdout.decode(), done.stderr.decode().replace(path, "FILE")


def unplaced(line):
    """A line on a node without a JSON text, without its place in the file and without the key that is no string."""
    line = re.sub(r"^FILE:[0-9]+:[0-9]+: ", "", line)
    return re.sub(r": a key is no string: .*\n$", ": a key is no string\n", line)


def main():
    parser = argparse.ArgumentParser()
    parser.add_argument("program")
    for name, default in [("seed", 1), ("count", 2000), ("faults", 200), ("show", 5)]:
        parser.add_argument("--" + name, type=int, default=default)
    a = parser.parse_args()
    r = random.Random(a.seed)
    wrong = []
    values = [value(r, 4) for _ in range(a.count)]
    texts = [document(r, v) for v in values]
    status, out, err = ran(a.program, [], "".join(texts))
    lines = out.split("\n")[:-1]
    if status or err or len(lines) != len(values):
        wrong.append(("status", status, err, len(lines)))
    for v, t, line in zip(values, texts, lines):
        if line != compact(v) or json.loads(line, parse_float=str) != plain(v):
            wrong.append((t, line, compact(v)))
    status, out, err = ran(a.program, ["--indent"], "".join(texts))
    if (status, err) != (0, "") or out != "".join(indented(v) + "\n" for v in values):
        wrong.append(("--indent", status, err))
    for _ in range(a.faults):
        v = with_fault(r, 3)
        path, reason = first_fault(v)
        t = "--- 1\n" + document(r, v)
        want = (1, "", "document 2: $" + path + ": " + reason + "\n")
        status, out, err = ran(a.program, [], t)
        got = (status, out, unplaced(err))
        if got != want:
            wrong.append((t, got, want))
    for w in wrong[: a.show]:
        print(*map(repr, w), sep="\n  ")
    print("clean" if not wrong else f"{len(wrong)} wrong")
    return 1 if wrong else 0


sys.exit(main())
