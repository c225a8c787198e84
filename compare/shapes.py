"""Documents in the shapes of real files: settings, CI and compose files, API descriptions, charts, front matter.

Each is made of a word list by a grammar of shapes, and then disturbed a little: CR LF for the line feeds, TABs after dashes and colons,
comments, blank lines, blanks at ends of lines, now and then a character that is dropped or doubled.
"""

WORDS = """name version image build test deploy ports volumes environment services script steps stage cache paths key value host port debug
timeout retries region bucket replicas labels app metadata spec kind template containers command args limits memory cpu enabled title
description summary tags author date layout draft categories parameters schema type required properties items responses content example
database username password url path method get post put delete on push pull branches runs uses with env matrix include exclude depends
networks restart healthcheck interval logging level format handlers root file size max min default rules action source target user group""".split()
FOREIGN = ["größe", "naïve", "ключ", "名前", "εἶδος", "año", "clé", "ñ", "日本語", "🎉", "ü b", "x\u00a0y", "œuvre", "z\u2028w", "\u0130d"]
VERBATIM = ["1.0", "3.8", "'3.8'", '"3.8"', "8080", "0755", "0o755", "0xFF", "1e3", "1_000", "true", "False", "yes", "no", "on", "~", "null", "Null", "", "-1", "+1", ".5", ".inf", "-.INF", ".NaN", "2001-12-14", "2001-12-14t21:59:43.10-05:00",
            "12:30:45", "10.0.0.1", "192.168.0.0/16", "1.2.3", "v1.2.3", "^1.2", "~1.2", ">=1.0", "'>= 1.0, < 2'", "80:80", '"80:80"', "127.0.0.1:80:80", "http://example.org/a?b=c&d=e#f", "https://x.y:8080/", "a@b.org", "'@x/y'", '"@x/y"',
            "/usr/bin/env", "./run.sh --all -v", "C:\\dir\\file", "${HOME}/x", "$VAR", "'{{ x }}'", '"{{ .Values.x }}"', "*.rs", "'*.rs'", "**/*.yml", "a, b", "a b c", "it's", "'it''s'", '"say \\"hi\\""', '"tab\\there"', '"\\u00e9"', "#notcomment", "a#b", "a #b",
            "'#x'", "[]", "{}", "[a, b]", "[1, 2, 3]", "[ main, 'release/**' ]", "{a: 1, b: two}", "{ cpu: 100m, memory: 128Mi }", "[{a: b}, c]", "{a: [b, c], d: {e: f}}", "{\"a\":1,\"b\":[true,null]}", "[a: b]", "!Ref Bucket", "!!str 5", "!!int 5", "!Sub '${A}-x'", "!GetAtt a.b",
            "&anchor value"]
ODD = ["*anchor", "-", "- x", "?", ": x", "a: b", "%x", "@x", "`x`", "|", ">", "=", "<<", "!x", "-foo", "--flag", "?x", ":x", "x:", "100%", "50 %", "<nil>", "\"multi\\\n  line\""]


def line(r, n):
    return " ".join(r.choice(WORDS) for _ in range(n))


def key(r):
    k = r.random()
    if k < 0.72: return r.choice(WORDS)
    if k < 0.78: return r.choice(FOREIGN)
    if k < 0.84: return r.choice(["'%s'", '"%s"']) % r.choice(WORDS + FOREIGN)
    if k < 0.90: return r.choice(WORDS) + r.choice(["-", "_", ".", "/", " ", "::"]) + r.choice(WORDS)
    return r.choice(["200", "'200'", "default", "$ref", "/pets/{id}", "<<", "x-custom", "on", "true", "1.5", "app.kubernetes.io/name", "~", "application/json", "? x"])


def indented(lines, n): return [" " * n + l if l else l for l in lines]


def block_text(r, n):
    """A literal or folded block's header and lines."""
    head = r.choice(["|", ">", "|-", ">-", "|+", ">+", "| # why", "|2" if n == 2 else "|", ">2-" if n == 2 else ">-"])
    lines = []
    for _ in range(r.randint(1, 5)):
        k = r.random()
        lines.append("" if k < 0.2 else ("  " if k < 0.35 else "\t" if k < 0.38 else "") + r.choice([line(r, r.randint(1, 8)), "echo $X | sort > y", "- not: a list", "# not a comment", "if [ -f x ]; then", r.choice(FOREIGN) * 3]))
    if not lines[0].strip(): lines[0] = "first " + line(r, 2)
    return head, indented(lines, n)


def scalar(r, n):
    """A scalar's first line, and the lines that go on."""
    k = r.random()
    if k < 0.30: return r.choice(WORDS), []
    if k < 0.54: return r.choice(VERBATIM), []
    if k < 0.55: return r.choice(ODD), []
    if k < 0.62: return r.choice(FOREIGN) + " " + line(r, 1), []
    if k < 0.72: return line(r, r.randint(2, 9)), []
    if k < 0.75: return line(r, r.randint(90, 160)), []
    if k < 0.80: return line(r, 3), indented([line(r, r.randint(1, 6)) for _ in range(r.randint(1, 3))], n)
    if k < 0.85:
        q = r.choice("'\"")
        return q + line(r, 3), indented([line(r, 2) if r.random() < 0.8 else "" for _ in range(r.randint(1, 2))] + [line(r, 1) + q], n)
    if k < 0.88: return "[" + line(r, 1) + ",", indented([line(r, 1) + ",", r.choice(["", "# c", "x: y,"]), line(r, 1) + "]"], n)
    if k < 0.90: return "{" + line(r, 1) + ": 1,", indented(['"%s": [%s],' % (r.choice(WORDS), r.choice(WORDS)), "}"], n)
    return block_text(r, n)


def value(r, depth, step, after):
    """What stands after a key's colon or a dash: its first line's rest, and lines that are already indented."""
    k = r.random()
    props = r.choice(["", "", "", "", "", "", "", "", "", "&anchor ", "!tag ", "!!map ", "&a1 "]) if k > 0.5 else ""
    if depth == 0 or k < 0.5: return scalar(r, step)
    if k < 0.75: return props.rstrip(), indented(mapping(r, depth - 1), step)
    if k < 0.95: return props.rstrip(), indented(sequence(r, depth - 1), 0 if after == ":" and r.random() < 0.5 else step)
    return props + r.choice(["# why", ""]), []


def mapping(r, depth):
    step, lines, seen = r.choice([2, 2, 2, 4, 3]), [], set()
    for _ in range(r.randint(1, 5)):
        k = key(r)
        if k in seen and r.random() < 0.95: continue
        seen.add(k)
        rest, more = value(r, depth, step, ":")
        lines.append((k + ": " + rest).rstrip() if r.random() < 0.97 else k + " : " + rest)
        lines += more
        if r.random() < 0.06: lines.append(r.choice(["", "# " + line(r, 3), "  # " + line(r, 2)]))
    return lines or ["a: b"]


def sequence(r, depth):
    lines, gap = [], r.choice([" ", " ", " ", " ", "   ", "\t"])
    for _ in range(r.randint(1, 4)):
        k = r.random()
        if depth and k < 0.45:
            first, *others = mapping(r, depth - 1)
            lines += ["-" + gap + first] + indented(others, 1 + len(gap))
        elif depth and k < 0.5:
            first, *others = sequence(r, depth - 1)
            lines += ["-" + gap + first] + indented(others, 1 + len(gap))
        else:
            rest, more = value(r, depth, 2, "-")
            lines += [("-" + gap + rest).rstrip(" ")] + more
    return lines


# ---- whole files

def settings(r): return ["# " + line(r, 4)] * r.randint(0, 2) + mapping(r, 3)


def jobs(r):
    lines = ["name: " + line(r, 2), "on:", "  push:", "    branches: [ main, 'release/**' ]", "jobs:"]
    for i in range(r.randint(1, 3)):
        lines += ["  job%d:" % i, "    runs-on: " + r.choice(["ubuntu-latest", "${{ matrix.os }}", "[self-hosted, linux]"]), "    steps:"]
        for _ in range(r.randint(1, 4)):
            head, more = scalar(r, 10)
            lines += ["      - name: " + line(r, 2), "        uses: actions/checkout@v%d" % r.randint(1, 4)] + (["        run: " + head] + more if r.random() < 0.7 else [])
    return lines


def compose(r):
    lines = ["version: '3.8'", "x-common: &common", "  restart: always", "services:"]
    for i in range(r.randint(1, 3)):
        lines += ["  " + r.choice(WORDS) + "%d:" % i, "    <<: *common", "    image: \"%s:%d.%d\"" % (r.choice(WORDS), i, i), "    ports:", "    - \"80%d:80\"" % i, "    - 443:443"]
        lines += indented(["environment:"] + ["  - %s=%s" % (r.choice(WORDS).upper(), r.choice(VERBATIM)) for _ in range(r.randint(1, 3))], 4)
    return lines + mapping(r, 1)


def description(r):
    lines = ["openapi: 3.0.%d" % r.randint(0, 3), "info: {title: %s, version: '1.0'}" % line(r, 2), "paths:"]
    for _ in range(r.randint(1, 3)):
        lines += ["  /%s/{%s}:" % (r.choice(WORDS), r.choice(WORDS)) if r.random() < 0.8 else "  '/x':", "    " + r.choice(["get", "post"]) + ":", "      summary: " + line(r, 4), "      parameters:"]
        lines += indented(sequence(r, 2), 6 + r.choice([0, 2])) + ["      responses:", "        '200':", "          description: " + scalar(r, 12)[0], "          content:", "            application/json:", "              schema:", "                $ref: '#/components/schemas/X'"]
    return lines


def chart(r):
    lines = []
    for i in range(r.randint(1, 3)):
        lines += ["---"] * (i > 0 or r.random() < 0.5) + ["# Source: x/templates/%d.yaml" % i] * (r.random() < 0.5) + ["apiVersion: v1", "kind: " + r.choice(["Service", "ConfigMap"]), "metadata:"] + indented(mapping(r, 2), 2) + ["spec:"] + indented(mapping(r, 3), 2)
    return lines + r.choice([[], [], ["..."], ["---"]])


def front_matter(r):
    return ["---"] + mapping(r, 1) + ["tags: [%s, %s]" % (r.choice(WORDS), r.choice(FOREIGN)), "---", "", "# " + line(r, 3), ""] + [line(r, r.randint(3, 12)) for _ in range(r.randint(0, 4))] + r.choice([[], ["* " + line(r, 2), "* x"], ["- " + line(r, 3)], ["> " + line(r, 3)]])


def directives(r):
    return r.choice([["%YAML 1.2"], ["%TAG !e! tag:example.com,2000:"], ["%YAML 1.1", "%TAG ! tag:x,2000:"]]) + ["--- " + r.choice(["", "!e!x", "!!map", "&root", "# c"])] + mapping(r, 2)


SHAPES = [settings, settings, jobs, compose, description, chart, chart, front_matter, directives, lambda r: sequence(r, 3)]


def disturbed(r, text):
    k = r.random()
    if k < 0.12: text = text.replace("\n", "\r\n")
    elif k < 0.16: text = text.replace("- ", "-\t", r.randint(1, 3))
    elif k < 0.20: text = text.replace(": ", ":\t", r.randint(1, 3))
    elif k < 0.24: text = text.replace("\n", " \n", r.randint(1, 4))
    elif k < 0.28: text = text.replace("\n", " # " + line(r, 2) + "\n", r.randint(1, 2))
    elif k < 0.31: text = text.replace("  ", "\t", 1)
    elif k < 0.45 and text:
        i = r.randrange(len(text))
        text = text[:i] + r.choice(["", text[i] * 2, " ", "\n", "\t", "'", '"', ":", "- "]) + text[i + 1:]
    return text


def generated(r):
    text = "\n".join(r.choice(SHAPES)(r)) + r.choice(["\n", "\n", "\n", "", "\n\n"])
    return disturbed(r, text)
