"""Names the departure that explains a difference from the original, or gives None.

Each rule is narrow: it says from our lines what the original must print, or what the first lines that differ must look like.
The names are those of the table in docs/DIFFERENCES.md.
"""
import re

TOKEN = re.compile(r"Token\(Marker \{ index: (\d+), line: (\d+), col: (\d+) \}, (.*)\)$", re.S)
PLACE = re.compile(r"index: \d+, line: \d+, col: \d+|at byte \d+ line \d+ column \d+|\b\d+:\d+\b")
COLUMNS = re.compile(r"index: \d+|col: \d+|byte \d+|column \d+|:\d+")
BLANKS = " \t\n\r\0"


class Token:
    def __init__(self, line):
        m = TOKEN.match(line)
        self.index, self.line, self.col, self.what = int(m[1]), int(m[2]), int(m[3]), m[4]

    def text(self):
        return "Token(Marker { index: %d, line: %d, col: %d }, %s)" % (self.index, self.line, self.col, self.what)


def parsed(lines):
    """The tokens, and the fault's line or None."""
    tokens, fault = [], None
    for line in lines:
        if line.startswith("ERR "):
            fault = line
        elif line:
            tokens.append(Token(line))
    return tokens, fault


def first_difference(ours, theirs):
    for i in range(max(len(ours), len(theirs))):
        a = ours[i] if i < len(ours) else ""
        b = theirs[i] if i < len(theirs) else ""
        if a != b:
            return i, a, b
    return None


# ---- pairs without braces in flow sequences

def is_braced(tokens, i):
    """Whether the start of a flow mapping is a `{`: a pair's start has a token of an earlier place after it."""
    return i + 1 >= len(tokens) or tokens[i + 1].index >= tokens[i].index and tokens[i + 1].what not in ("Key", "Value") or tokens[i + 1].index > tokens[i].index


def without_pairs(tokens):
    """The tokens but for the starts and ends of pairs without braces."""
    out, levels = [], []
    for i, t in enumerate(tokens):
        if t.what == "FlowMappingStart":
            levels.append("{" if is_braced(tokens, i) else "pair")
            if levels[-1] == "pair":
                continue
        elif t.what == "FlowSequenceStart":
            levels.append("[")
        elif t.what == "FlowMappingEnd" and levels and levels[-1] == "pair":
            levels.pop()
            continue
        elif t.what in ("FlowMappingEnd", "FlowSequenceEnd") and levels:
            levels.pop()
        out.append(t)
    return out


def keys_of(tokens):
    """The key of each `:`, by the place of the `:` in these tokens."""
    keys, waiting = {}, [None]
    for i, t in enumerate(tokens):
        if t.what in ("FlowMappingStart", "FlowSequenceStart"):
            waiting.append(None)
        elif t.what in ("FlowMappingEnd", "FlowSequenceEnd") and len(waiting) > 1:
            waiting.pop()
        elif t.what == "Key":
            waiting[-1] = t
        elif t.what == "Value":
            keys[i], waiting[-1] = waiting[-1], None
        elif t.what == "FlowEntry":
            waiting[-1] = None
    return keys


def is_explicit(text, key):
    return text[key.index:key.index + 1] == "?" and (text[key.index + 1:key.index + 2] or "\0") in BLANKS


def after_colon(text, t):
    i = t.index + 1
    if text[i:i + 1] == "\t":
        while text[i:i + 1] in (" ", "\t") and text[i:i + 1]:
            i += 1
    return i - t.index


def with_one_flag(text, tokens):
    """The tokens as they are with one flag for all levels; and the places of the `:`s, each with whether it opens a pair."""
    tokens = without_pairs(tokens)
    keys = keys_of(tokens)
    out, level, started, implicit, colons = [], 0, False, False, {}
    for i, t in enumerate(tokens):
        if t.what in ("FlowSequenceEnd", "FlowMappingEnd", "FlowEntry"):
            if t.what != "FlowEntry" and level:
                level -= 1
            if implicit:
                implicit = started = False
                end = Token(t.text()); end.what = "FlowMappingEnd"
                out.append(end)
        if t.what in ("FlowSequenceStart", "FlowMappingStart"):
            level += 1
            started = started or t.what == "FlowMappingStart"
        if t.what == "Key" and level and is_explicit(text, t):
            started = True
        if t.what == "Value":
            implicit = level > 0 and not started
            colons[t.index] = implicit
            if implicit:
                step = after_colon(text, t)
                start = Token(t.text()); start.what = "FlowMappingStart"; start.index += step; start.col += step
                if keys[i] and not is_explicit(text, keys[i]):
                    out.insert(next(j for j, other in enumerate(out) if other is keys[i]), start)
                else:
                    out.append(start)
        out.append(t)
    return [t.text() for t in out], colons


def pairs(text, ours, theirs):
    tokens, fault = parsed(ours)
    if "[" not in text and "{" not in text:
        return None
    want, colons = with_one_flag(text, tokens)
    if want + ([fault] if fault else []) == [l for l in theirs if l]:
        return "one flag for all levels"
    got, their_fault = parsed(theirs)
    their = [t.text() for t in got]
    illegal = "illegal placement of ':' indicator"
    if fault and illegal in fault and their[:len(want)] == want:
        return "one flag for all levels"
    if their_fault and illegal in their_fault and want[:len(their)] == their:
        m = re.search(r"at byte (\d+) ", their_fault)
        if colons.get(int(m[1])):
            return "one flag for all levels"
    # A second `:` in one entry.
    return None


# ---- other rules on tokens

def characters(text, ours, theirs):
    if any(ord(c) > 127 for c in text) and ("|" in text or ">" in text) and len(ours) == len(theirs):
        if all(COLUMNS.sub("", a) == COLUMNS.sub("", b) for a, b in zip(ours, theirs)):
            i, a, _ = first_difference(ours, theirs)
            is_after = any("Scalar(Literal" in l or "Scalar(Folded" in l for l in ours[:i + 1])
            # Tokens that waited when a fault was met aren't handed out.
            if is_after or a.startswith("ERR") and re.search(r"[|>][^\n\r]*[\n\r].*[^\x00-\x7f]", text, re.S):
                return "bytes past the window"
    return None


def octets(text, ours, theirs):
    i, a, b = first_difference(ours, theirs)
    if re.search(r"%[89A-Fa-f][0-9A-Fa-f]", text):
        is_same_tag = "Tag" in a and PLACE.sub("", a).split("Tag")[0] == PLACE.sub("", b).split("Tag")[0]
        if is_same_tag or "while parsing a tag" in a or "while parsing a tag" in b:
            return "octets of a tag"
    return None


def block_at_margin(text, ours, theirs):
    i, a, b = first_difference(ours, theirs)
    if re.search(r"(^|[\n\r])---([ \t\n\r\0]|$)", text) and ("Scalar(Literal" in b or "Scalar(Folded" in b or b.startswith("ERR")):
        if b.count("---") > (a.count("---") if "Scalar" in a else 0):
            return "a block scalar at column 0"
    return None


def tab_before_comment(text, ours, theirs):
    i, a, b = first_difference(ours, theirs)
    if re.search(r"[\n\r][ \t]*\t[ \t]*#", text) and "Scalar(Plain" in b:
        m, n = re.search(r'Scalar\(Plain, "(.*)"', a), re.search(r'Scalar\(Plain, "(.*)"', b)
        if m and n and n[1].startswith(m[1]):
            return "a comment after a TAB"
    return None


def pairs_and_characters(text, ours, theirs):
    """One flag, and columns and indices that count bytes after a block scalar."""
    if not any(ord(c) > 127 for c in text) or not ("|" in text or ">" in text):
        return None
    def plain(lines): return [COLUMNS.sub("", l) for l in lines if l]
    tokens, fault = parsed(ours)
    want, colons = with_one_flag(text, tokens)
    want, their = plain(want + ([fault] if fault else [])), plain(theirs)
    stop = "illegal placement of ':' indicator"
    is_stopped = their and stop in their[-1] and want[:len(their) - 1] == their[:-1] and any(colons.values())
    if want == their or is_stopped or fault and stop in fault and their[:len(want) - 1] == want[:-1]:
        return "one flag for all levels, and bytes past the window"
    return None


TAB_COMMENT = re.compile(r"[ \t]*\t[ \t]*#")


def tab_before_comment_in_a_key(text, ours, theirs):
    """A scalar that ends at such a comment and was to be a key: it isn't handed out, and the fault stands where it ended. The original
    goes on, to a later fault of the same kind or to a line with a TAB that is no comment; then its fault has the scalar's first place."""
    tokens, fault = parsed(ours)
    other, their_fault = parsed(theirs)
    stop, tab = "simple key expect ':' at byte ", "while scanning a plain scalar, found a tab at byte "
    if not fault or not their_fault or stop not in fault or not (stop in their_fault or tab in their_fault):
        return None
    lines = re.split("\r\n|\r|\n", text)
    line, their_line = (int(re.search(r" line (\d+) ", f)[1]) for f in (fault, their_fault))
    goes_on = their_line > line if stop in their_fault else their_line < line
    is_there = line <= len(lines) and TAB_COMMENT.match(lines[line - 1]) and goes_on

    def plain(these): return [COLUMNS.sub("", t if isinstance(t, str) else t.text()) for t in these]
    if is_there and plain(other) in (plain(tokens), plain(with_one_flag(text, tokens)[0])):
        return "a comment after a TAB"
    return None


TOKEN_RULES = [pairs, characters, octets, block_at_margin, tab_before_comment, pairs_and_characters, tab_before_comment_in_a_key]


def explain_tokens(text, ours, theirs):
    for rule in TOKEN_RULES:
        name = rule(text, ours, theirs)
        if name:
            return name
    return None


# ---- rules on events, where the tokens agree

def explain_events(text, ours, theirs, tokens):
    tokens, _ = parsed(tokens)
    difference = first_difference(ours, theirs)
    if difference is None:
        return None
    i, a, b = difference
    whats = [t.what for t in tokens]
    # An empty key after `?` in a flow sequence.
    levels = []
    for j, what in enumerate(whats):
        if what in ("FlowSequenceStart", "FlowMappingStart"):
            levels.append(what)
        elif what in ("FlowSequenceEnd", "FlowMappingEnd") and levels:
            levels.pop()
        elif what == "Key" and levels and levels[-1] == "FlowSequenceStart":
            if whats[j + 1:j + 2] and whats[j + 1] in ("Value", "FlowEntry", "FlowSequenceEnd"):
                return "an empty key after `?`"
    if len(ours) == len(theirs) and all(PLACE.sub("", x) == PLACE.sub("", y) for x, y in zip(ours, theirs)):
        if all(x == y or x.startswith("MappingEnd") for x, y in zip(ours, theirs)) and "?" in text:
            return "the end of a pair that began with `?`"
    directives = [w for w in whats if w.startswith("TagDirective") or w.startswith("VersionDirective")]
    if directives and ("tag" in a or "tag" in b or "handle" in a + b or "directive" in a + b):
        if len(directives) > 1 or 'TagDirective("", "")' in directives:
            return "directives"
    starts = sum(l.startswith("DocumentStart") for l in theirs[:i + 1])
    if starts > 1 and "unknown anchor" in a and b.startswith("Alias"):
        return "anchors of an earlier document"
    return None
