"""Makes the bench's inputs: one text of about so many bytes of each kind."""
import random

WORDS = "alpha beta gamma delta server client port path name value region cache limit".split()


def word(r):
    return r.choice(WORDS) + str(r.randint(0, 999))


def scalar(r):
    return r.choice([str(r.randint(-99999, 99999)), "true", "~", "%.3f" % r.random(), word(r), word(r) + " " + word(r),
                     "'" + word(r) + ": x'", '"' + word(r) + '\\n"'])


def block(r, size):
    out, length = [], 0
    while length < size:
        lines = ["- id: " + word(r), "  settings:"]
        for i in range(r.randint(2, 5)):
            lines.append("    key%d: %s" % (i, scalar(r)))
        lines.append("  items:")
        for _ in range(r.randint(1, 4)):
            lines.append("    - " + scalar(r))
        lines.append("  nested:\n    a:\n      b:\n        c:\n          - " + scalar(r) + "\n          - d: " + scalar(r))
        text = "\n".join(lines) + "\n"
        out.append(text)
        length += len(text)
    return "".join(out)


def json_value(r, depth):
    k = r.random()
    if depth == 0 or k < 0.4:
        return r.choice([str(r.randint(-10**6, 10**6)), "true", "null", "%.5f" % r.random(), '"%s"' % word(r), '"%s \\"q\\" \\u00e9"' % word(r)])
    if k < 0.7:
        return "[" + ", ".join(json_value(r, depth - 1) for _ in range(r.randint(1, 5))) + "]"
    return "{" + ", ".join('"k%d": %s' % (i, json_value(r, depth - 1)) for i in range(r.randint(1, 5))) + "}"


def json(r, size):
    out, length = [], 0
    while length < size:
        text = json_value(r, 5)
        out.append(text)
        length += len(text) + 2
    return "[" + ",\n".join(out) + "]\n"


def literal(r, size):
    out, length = [], 0
    while length < size:
        lines = ["- |"] + ["  " + " ".join(word(r) for _ in range(r.randint(5, 14))) for _ in range(20)]
        text = "\n".join(lines) + "\n"
        out.append(text)
        length += len(text)
    return "".join(out)


def quoted(r, size):
    out, length = [], 0
    while length < size:
        text = '- "' + " ".join(word(r) + r.choice(["", "", "", "\\t", "\\u00e9"]) for _ in range(300)) + '"\n'
        out.append(text)
        length += len(text)
    return "".join(out)


def flow(r, size):
    out, length = [], 0
    while length < size:
        depth = r.randint(50, 200)
        text = "- " + "[" * depth + word(r) + "]" * depth + "\n"
        out.append(text)
        length += len(text)
    return "".join(out)


def anchors(r, size):
    out, length, i = [], 0, 0
    while length < size:
        text = "- &a%d {x: %d, y: %s}\n- [*a%d, *a%d]\n" % (i, i, word(r), i, max(0, i - 1))
        out.append(text)
        length += len(text)
        i += 1
    return "".join(out)


def settings(r, size):
    """A file of 2 KB; a tenth of it for the growth."""
    return block(r, 2000 if size > 1000000 else 200)


def pairs(r, size, shuffled):
    """One mapping of keys of seven digits."""
    count = size // 12
    numbers = list(range(count))
    if shuffled:
        r.shuffle(numbers)
    return "".join("k%07d: %d\n" % (n, n % 7) for n in numbers)


def keys(r, size):
    return pairs(r, size, True)


def sorted_keys(r, size):
    return pairs(r, size, False)


KINDS = {"block": block, "json": json, "literal": literal, "quoted": quoted, "flow": flow, "anchors": anchors, "settings": settings,
         "keys": keys, "sorted_keys": sorted_keys}


def make(kind, size):
    return KINDS[kind](random.Random(7), size)
