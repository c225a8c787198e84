"""Made trees, trees that are printed for a programmer, and the text that each emitter writes for a tree.

A tree is a pair of a name and its contents: string, real (texts), integer, boolean, null, bad, alias, array (a list), hash (a
list of pairs).
"""
import re

# ---- trees as programs print them: `Hash({String("a"): Array([Integer(1), Null])})`

ESCAPES = {"n": "\n", "t": "\t", "r": "\r", "0": "\0", "'": "'", '"': '"', "\\": "\\"}
QUOTED = re.compile(r'"((?:[^"\\]|\\.)*)"', re.S)
ESCAPE = re.compile(r"\\(?:u\{([0-9a-fA-F]+)\}|(.))", re.S)
TEXTS = {"String": "string", "Real": "real"}
WORDS = {"Null": ("null", None), "BadValue": ("bad", None)}
CALL = re.compile(r"(Integer|Boolean|Alias)\(([^)]*)\)")


def read(line):
    tree, end = node(line, 0)
    if end != len(line):
        raise ValueError(line)
    return tree


def node(s, i):
    for name, kind in TEXTS.items():
        if s.startswith(name + '("', i):
            m = QUOTED.match(s, i + len(name) + 1)
            text = ESCAPE.sub(lambda e: chr(int(e[1], 16)) if e[1] else ESCAPES[e[2]], m[1])
            return (kind, text), m.end() + 1
    for name, tree in WORDS.items():
        if s.startswith(name, i):
            return tree, i + len(name)
    if s.startswith("Array([", i):
        items, i = [], i + 7
        while s[i] != "]":
            item, i = node(s, i)
            items.append(item)
            i += 2 if s.startswith(", ", i) else 0
        return ("array", items), i + 2
    if s.startswith("Hash({", i):
        pairs, i = [], i + 6
        while s[i] != "}":
            key, i = node(s, i)
            value, i = node(s, i + 2)
            pairs.append((key, value))
            i += 2 if s.startswith(", ", i) else 0
        return ("hash", pairs), i + 2
    m = CALL.match(s, i)
    return (m[1].lower(), int(m[2]) if m[1] != "Boolean" else m[2] == "true"), m.end()


def answer(lines):
    """The trees that lines show, or the fault's line."""
    lines = [l for l in lines if l]
    if lines and lines[-1].startswith("ERR "):
        return lines[-1]
    return [read(l) for l in lines]


def has(tree, kinds):
    if tree[0] in kinds:
        return True
    inner = tree[1] if tree[0] == "array" else [x for pair in tree[1] for x in pair] if tree[0] == "hash" else []
    return any(has(x, kinds) for x in inner)


# ---- made trees, written as flow collections

LETTERS = ["a", "b", "Z", "0", "7", " ", " ", "\n", "\n", "\n\n", "\t", "\r", "-", "---", "...", ":", "#", "?", "[", "]", "{", "}", ",", "&", "*", "!", "|", ">", "'", '"', "%", "@", "`", "\\",
           "\x01", "\x07", "\x08", "\x0b", "\x0c", "\x1b", "\x7f", "\x85", "\xa0", "\xe9", "\u2028", "\u2029", "\u4f60", "\ud7ff", "\ue000", "\ufeff", "\ufffd", "\U0001f600", "\U0010ffff"]
STRINGS = ["", "~", "null", "Null", "true", "TRUE", "y", "No", "off", "0o52", "0o-7", "0x1F", "0xZ", "++5", "+-5", "+5", "-5", "12", "1e5", "1e", "1_000", ".5", "5.", ".", "+.inf", "+.Inf", "-.inf", ".nan", "+.nan",
           "inf", "-Infinity", "+NaN", "nanx", "2014-12-31", "a b", " a", "a ", "x: y", "x #y", "a\nb", "a\nb\n", "a\n\nb", "a\n\n", "\na", "\n", "\n\n", " a\nb", "a\n b", "\ta\nb", "a\n---\nb", "---\na", "---x\na",
           "a\n... \n", "a\n\u00e9\n", "a\n\ufeff", "a\n\x85b", "a\n\U000e0001", "a\n\ue000", "a\n \n", "a\r\nb", "\n \na", "\n\n a"]
REALS = ["1.5", "-0.25", "1e400", "9223372036854775808", ".inf", "-.INF", ".nan", "+.5", "5.", "1E-3"]
INTEGERS = [0, 1, -1, 42, 9223372036854775807, -9223372036854775808]


def text(r):
    return r.choice(STRINGS) if r.random() < 0.5 else "".join(r.choice(LETTERS) for _ in range(r.randint(0, 7)))


def scalar(r):
    k = r.random()
    if k < 0.6:
        return ("string", text(r))
    return r.choice([("integer", r.choice(INTEGERS)), ("real", r.choice(REALS)), ("boolean", r.random() < 0.5), ("null", None)])


def made(r, depth):
    k = r.random()
    if depth == 0 or k < 0.3:
        return scalar(r)
    if k < 0.65:
        return ("array", [made(r, depth - 1) for _ in range(r.randint(0, 4))])
    pairs = {}
    for _ in range(r.randint(0, 4)):
        key = made(r, depth - 1) if r.random() < 0.2 else scalar(r)
        pairs[repr(key)] = (key, made(r, depth - 1))
    return ("hash", list(pairs.values()))


def quoted(s):
    plain = lambda c: c == "\x85" or "\x20" <= c < "\x7f" or "\xa0" <= c and c not in "\u2028\u2029\ufeff"
    return '"' + "".join("\\" + c if c in '"\\' else c if plain(c) else "\\U%08x" % ord(c) for c in s) + '"'


def flow(tree):
    kind, it = tree
    if kind == "array":
        return "[" + ", ".join(flow(x) for x in it) + "]"
    if kind == "hash":
        return "{" + ", ".join("? %s : %s" % (flow(k), flow(v)) for k, v in it) + "}"
    return {"string": lambda: quoted(it), "null": lambda: "~", "boolean": lambda: str(it).lower()}.get(kind, lambda: str(it))()


# ---- the text that an emitter writes

WORDS_QUOTED = set("true True TRUE false False FALSE null Null NULL ~ y Y n N yes Yes YES no No NO on On ON off Off OFF".split())
HELD = re.compile("[:{}\\[\\],#`\"'\\\\\x00-\x06\t\n\r\x0e-\x1a\x1c-\x1f]")
NUMBER = re.compile(r"[+-]?((inf|infinity|nan)|([0-9]+\.?[0-9]*|\.[0-9]+)(e[+-]?[0-9]+)?)$", re.I | re.A)
TYPED = re.compile(r"0o[+-]?[0-7]+$|\+[+-]?[0-9]+$|\+\.(inf|Inf|INF)$", re.A)
LITERAL = re.compile("[\t\n\x20-\x7e\x85\xa0-\ud7ff\ue000-\ufefe\uff00-\ufffd\U00010000-\U0010ffff]*$")
THEIR_LITERAL = re.compile("[\t\n\x20-\x7e\x85\xa0-\U000d7fff]*$")
MARKER = re.compile(r"^(---|\.\.\.)([ \t]|$)", re.M)


def their_quotes(s):
    return not s or s[0] == " " or s[-1] == " " or s[0] in "&*?|-<>=!%@." or bool(HELD.search(s)) or s in WORDS_QUOTED or s.startswith("0x") or bool(NUMBER.match(s))


def our_quotes(s):
    return their_quotes(s) or bool(TYPED.match(s))


def their_literal(s, is_key, is_root):
    return "\n" in s and bool(THEIR_LITERAL.match(s))


def our_literal(s, is_key, is_root):
    if is_key or "\n" not in s or not LITERAL.match(s) or not s.strip("\n") or s.endswith("\n\n"):
        return False
    if s.lstrip("\n").startswith(" "):
        return False
    return not is_root or not s.startswith("\t") and not MARKER.search(s)


SHORT = {'"': '\\"', "\\": "\\\\", "\b": "\\b", "\t": "\\t", "\n": "\\n", "\f": "\\f", "\r": "\\r"}


class Emitter:
    def __init__(self, spread, multiline, quotes, literal):
        self.spread, self.multiline, self.quotes, self.literal = spread, multiline, quotes, literal
        self.out = ["---\n"]

    def text(self, tree):
        self.node(tree, -1, False)
        return "".join(self.out)

    def pad(self, level): self.out.append("  " * max(level, 0))

    def string(self, s, level, is_key):
        if self.multiline and self.literal(s, is_key, level < 0):
            self.out.append("|" if s.endswith("\n") else "|-")
            lines = s[:-1] if s.endswith("\n") else s
            for line in lines.split("\n"):
                self.out.append("\n")
                self.pad(level + 1)
                self.out.append(line)
        elif self.quotes(s):
            self.out.append('"' + "".join(SHORT.get(c) or ("\\u%04x" % ord(c) if ord(c) < 32 or c == "\x7f" else c) for c in s) + '"')
        else:
            self.out.append(s)

    def node(self, tree, level, is_key):
        kind, it = tree
        if kind == "array":
            self.array(it, level)
        elif kind == "hash":
            self.hash(it, level)
        elif kind == "string":
            self.string(it, level, is_key)
        else:
            self.out.append({"boolean": str(it).lower(), "null": "~", "bad": "~", "alias": ""}.get(kind, str(it)))

    def array(self, items, level):
        if not items:
            self.out.append("[]")
        for i, item in enumerate(items):
            self.next(i, level + 1)
            self.out.append("-")
            self.value(item, True, level + 1)

    def hash(self, pairs, level):
        if not pairs:
            self.out.append("{}")
        for i, (key, value) in enumerate(pairs):
            self.next(i, level + 1)
            if key[0] in ("array", "hash"):
                self.out.append("?")
                self.value(key, True, level + 1)
                self.next(1, level + 1)
                self.out.append(":")
                self.value(value, True, level + 1)
            else:
                self.node(key, level + 1, True)
                self.out.append(":")
                self.value(value, False, level + 1)

    def next(self, i, level):
        if i:
            self.out.append("\n")
            self.pad(level)

    def value(self, tree, is_inline, level):
        if tree[0] in ("array", "hash") and tree[1] and not (is_inline and not self.spread):
            self.out.append("\n")
            self.pad(level + 1)
        else:
            self.out.append(" ")
        self.node(tree, level, False)


def as_key(tree):
    """What we write of a scalar that is a key; nothing of other trees."""
    emitter = Emitter(False, False, our_quotes, our_literal)
    emitter.out = []
    if tree[0] not in ("array", "hash"):
        emitter.node(tree, 0, True)
    return "".join(emitter.out)


def explain(trees, spread, multiline, ours, theirs):
    """The departure by which the original writes `theirs` and we `ours` for these trees, or None."""
    def texts(quotes, literal): return "".join(Emitter(spread, multiline, quotes, literal).text(t) + "\n" for t in trees)
    if ours != texts(our_quotes, our_literal) or theirs != texts(their_quotes, their_literal):
        return None
    if theirs == texts(their_quotes, our_literal):
        return "texts that would be read as numbers"
    if theirs == texts(our_quotes, their_literal):
        return "where a literal block may stand"
    return "both: texts read as numbers, and where a literal block may stand"


def with_lost_keys(tree):
    """The tree as it is where a key that is a bad value counts as no key: what comes after it is taken as the key."""
    kind, it = tree
    if kind == "array":
        return kind, [with_lost_keys(x) for x in it]
    if kind != "hash":
        return tree
    pairs, key = [], None
    for x in (with_lost_keys(x) for pair in it for x in pair):
        if key is None:
            key = x if x[0] != "bad" else None
        else:
            pairs = [p for p in pairs if p[0] != key] + [(key, x)]
            key = None
    return kind, pairs


def explain_trees(ours, theirs):
    """The departure by which the original loads `theirs` and we `ours`, or None."""
    if isinstance(ours, list) and isinstance(theirs, list) and [with_lost_keys(t) for t in ours] == theirs:
        return "a bad value as a key"
    return None
