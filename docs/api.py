#!/usr/bin/env python3
"""Writes docs/API.md, the list of the public items, from their doc comments.

usage: api.py           writes docs/API.md
       api.py --check   writes nothing; with status 1 where docs/API.md is not what would be written

Either way these are told, with status 1: items without a doc comment, calls whose doc comment does not say when their error comes, and
modules and crates that the page leaves out.

An item has its first sentence, the file where it stands, and its error: the type, and the section `Errors` of the doc comment or the
sentences that speak of the error. Names are followed through each `pub use` to where the item stands. Ghost items are left out.
"""
import glob
import os
import re
import sys

TOP = os.path.join(os.path.dirname(os.path.abspath(__file__)), "..")
PAGE = os.path.join(TOP, "docs", "API.md")
FACADE, MODULES = "yaml_rust2", ["yaml", "emitter", "parser", "scanner", "laws"]
# Crates beside the facade: all of a crate, a module of it, or one item of its root.
BESIDE = [("yaml_loader", "limits"), ("yaml_loader", "marked"), ("yaml_loader", "documents"), ("yaml_loader", "laws"), ("yaml_tokens", "Excerpt"),
          ("yaml_json", ""), ("yaml_paths", ""), ("overlay", "")]

INTRO = """# The public items

They are those of the facade `yaml_rust2`, module by module, and of the crates beside it. docs/api.py writes this page from the doc comments,
which say more; `docs/api.py --check` says whether it still agrees with them.

A file stands below `crates/`; a row without one stands in the file of its type. An error is written as its type, and when it comes.
`AllocError` and `AllocFailed` are of `std::alloc`: memory was refused, and an `AllocFailed` hands back what was to be stored. What laws are
for is told in docs/PROVED.md."""

ITEM = re.compile(r"^pub (?:const (?=fn))?(struct|enum|trait|type|const|fn|mod) (\w+)")
ALIASES = {"fmt::Result": "fmt::Error"}


def named(crate, module):
    return crate + "::" + module if module else crate


class Item:
    """A public item: its kind, its name, how it is written, its doc comment, its file, and what it holds."""

    def __init__(self, kind, name, head, doc, path):
        self.kind, self.name, self.head, self.doc, self.path = kind, name, head, doc, path
        self.members, self.traits = [], []


# ---- reading a file

def head_of(lines, i):
    """An item's head from a line on, as one line: without its clauses and its body."""
    indent = len(lines[i]) - len(lines[i].lstrip())
    head = []
    for line in lines[i:]:
        if re.match(r" *(ensures|requires)\b", line) or line == indent * " " + "{" or line == indent * " " + "{}":
            break
        head.append(line.strip())
        if line.endswith((" {", ";", " {}", "},")) or (head[0].endswith(",") and len(head) == 1):
            break
    text = re.sub(r" ?\{\}?$|[;,]$|\},$", "", " ".join(head))
    return re.sub(r",? \)", ")", re.sub(r"\( ", "(", text)).replace("( ", "(")


def block_of(lines, i):
    """The lines inside the braces of an item that begins at a line."""
    indent = len(lines[i]) - len(lines[i].lstrip())
    if lines[i].endswith((";", "{}")):
        return []
    end = next(j for j in range(i + 1, len(lines)) if re.match(r" {%d}[})]" % indent, lines[j]) and not lines[j].strip().startswith(") ->"))
    start = next(j for j in range(i, end + 1) if lines[j].endswith("{"))
    return lines[start + 1:end]


def documented(lines, starts):
    """Each line that a pattern finds, with its number and the doc comment before it."""
    doc = []
    for i, line in enumerate(lines):
        comment = re.match(r"\s*/// ?(.*)", line)
        if comment:
            doc.append(comment[1])
        elif not re.match(r"\s*#\[", line):
            found = starts.match(line)
            if found:
                yield i, found, doc
            doc = []


def members(kind, lines, path):
    """What is public in the body of a type or trait."""
    pattern = {
        "struct": r"    pub (\w+): ",
        "enum": r"    ([A-Z]\w*)",
        "trait": r"    (?:const |type |fn )(\w+)",
        "impl": r"    pub (?:const )?fn (\w+)",
        "trait impl": r"    fn (\w+)",
    }[kind]
    for i, found, doc in documented(lines, re.compile(pattern)):
        if doc or kind != "trait impl":
            head = re.sub(r"^pub ", "", head_of(lines, i))
            if kind == "enum" and lines[i].endswith("{"):
                head += " { %s }" % ", ".join(it.strip(" ,") for it in block_of(lines, i) if not it.strip().startswith("//"))
            yield Item("fn" if re.search(r"\bfn ", found[0]) else kind, found[1], head, doc, path)


def items_of(path, text):
    """The public items of a file."""
    lines = text.split("\n")
    for i, found, doc in documented(lines, ITEM):
        item = Item(found[1], found[2], head_of(lines, i), doc, path)
        if found[1] in ("struct", "enum", "trait"):
            item.members += members(found[1], block_of(lines, i), path)
            before = "\n".join(lines[:i]).rsplit("\n\n", 1)[-1]
            item.traits += [it.strip() for derived in re.findall(r"#\[derive\((.*?)\)\]", before) for it in derived.split(",")]
        yield item


def impls_of(path, text):
    """The type of each `impl` of a file, its trait or `None`, and what is public in it."""
    lines = text.split("\n")
    for i, line in enumerate(lines):
        if re.match(r"impl\b", line):
            head = re.sub(r"^impl(<(?:[^<>]|<[^<>]*>)*>)? ", "", head_of(lines, i))
            trait, _, own = head.rpartition(" for ")
            name = re.match(r"&?(?:'\w+ )?(?:mut )?(?:\w+::)*(\w+)", own)[1]
            yield name, trait or None, list(members("trait impl" if trait else "impl", block_of(lines, i), path))


class Crate:
    """A crate: its modules, each with what it defines and what it passes on."""

    def __init__(self, name):
        self.name, self.files, self.items, self.passed = name, {}, {}, {}
        root = os.path.join(TOP, "crates", name, "src")
        for path in sorted(glob.glob(os.path.join(root, "**", "*.rt"), recursive=True)):
            module = re.sub(r"/mod$|^lib$", "", os.path.relpath(path, root)[:-3])
            if "tests" not in module.split("/"):
                with open(path) as text:
                    self.files[module] = text.read()
        for module, text in self.files.items():
            shown = "%s/src/%s.rt" % (name, module or "lib")
            self.items[module] = {item.name: item for item in items_of(shown, text)}
            self.passed[module] = dict(uses_of(text))
        everywhere = {item.name: item for found in self.items.values() for item in found.values()}
        for module, text in self.files.items():
            for named, trait, inside in impls_of("%s/src/%s.rt" % (name, module or "lib"), text):
                own = self.items[module].get(named) or everywhere.get(named)
                if own and trait != "Model":
                    own.members += [it for it in inside if it.name not in [have.name for have in own.members]]
                    own.traits += [trait] if trait else []

    def doc(self, module):
        return [line[4:] for line in self.files[module].split("\n") if line.startswith("//!")]


def uses_of(text):
    """The names that a module passes on, each with its path."""
    for path in re.findall(r"^pub use ([^;]+);", text, re.M):
        path = "".join(path.split())
        base, _, names = path.partition("{")
        for name in names.rstrip("}").split(",") if names else [path.rpartition("::")[2]]:
            if name:
                yield name, (base + name if names else path).split("::")


class Library:
    """The crates of the repository, read where they are asked for."""

    def __init__(self):
        self.crates = {}

    def crate(self, name):
        if name not in self.crates:
            self.crates[name] = Crate(name)
        return self.crates[name]

    def public(self, crate, module=""):
        """The items that a module makes public, in their order in the file, each once."""
        it = self.crate(crate)
        found = [item for item in it.items[module].values() if item.kind != "mod"]
        return found + [self.item(crate, module, path) for path in it.passed[module].values()]

    def part(self, crate, name):
        """What a module makes public, with that module; or the item of this name, with the module where it stands."""
        if self.is_module(crate, name):
            return self.public(crate, name), name
        item = self.item(crate, "", [name])
        return [item], re.sub(r".*/src/(.*)\.rt$", r"\1", item.path)

    def item(self, crate, module, path):
        """The item at a path, or the name of a crate and a module."""
        if path[0] in ("crate", "self"):
            module, path = "" if path[0] == "crate" else module, path[1:]
        elif not self.is_module(crate, self.below(module, path[0])) and len(path) > 1:
            crate, module, path = path[0], "", path[1:]
        for name in path[:-1]:
            module = self.below(module, name)
        it, name = self.crate(crate), path[-1]
        if name in it.passed[module]:
            return self.item(crate, module, it.passed[module][name])
        if self.is_module(crate, self.below(module, name)) and (name not in it.items[module] or it.items[module][name].kind == "mod"):
            return (crate, self.below(module, name))
        return it.items[module][name]

    def is_module(self, crate, module):
        return module in self.crate(crate).files

    @staticmethod
    def below(module, name):
        return (module + "/" if module else "") + name


# ---- reading a doc comment

def plain(text):
    """A doc comment's words without links."""
    return re.sub(r"\[(`[^`]+`)\](\([^)]*\))?", r"\1", text)


def sentences(lines):
    return re.split(r"(?<=[.!?]) (?=[A-Z`(])", plain(" ".join(lines)))


def before_sections(doc):
    """The doc comment up to its first heading, by paragraphs."""
    end = next((i for i, line in enumerate(doc) if line.startswith("# ")), len(doc))
    return [part.split("\n") for part in re.split(r"\n\s*\n", "\n".join(doc[:end]).strip())]


def first_sentence(doc):
    return re.sub(":$", ".", sentences(before_sections(doc)[0])[0])


def error_words(doc):
    """What a doc comment says of its error."""
    if "# Errors" in doc:
        rest = doc[doc.index("# Errors") + 1:]
        end = next((i for i, line in enumerate(rest) if line.startswith("# ")), len(rest))
        return plain(" ".join(line for line in rest[:end] if line))
    parts = [part for part in before_sections(doc) if not part[0].startswith(("|", "-"))]
    return " ".join(it for part in parts for it in sentences(part) if re.search(r"`Err`|refuse", it))


def arguments(text):
    """The parts between the commas of a list, which are not inside brackets."""
    parts, depth = [""], 0
    for c in text:
        depth += (c in "<([{") - (c in ">)]}")
        if c == "," and not depth:
            parts.append("")
        else:
            parts[-1] += c
    return [part.strip() for part in parts if part.strip()]


def error_type(head, aliases):
    """The error of the `Result` that a head gives, or `None`."""
    given = head.rpartition("-> ")[2] if "->" in head else ""
    for name, error in aliases.items():
        if re.search(r"(^|[<(])%s($|[>)])" % re.escape(name), given):
            return error
    found = re.search(r"\b(io::)?Result<(.*)>", given.replace("->", "  "))
    if not found:
        return None
    return "io::Error" if found[1] else inside(found[2])


def inside(text):
    """The second argument of the list that a text begins with."""
    depth = 0
    for i, c in enumerate(text):
        depth += (c == "<") - (c == ">")
        if depth < 0:
            text = text[:i]
            break
    return arguments(text)[1]


# ---- writing the page

class Page:
    def __init__(self):
        self.library, self.lines, self.faults = Library(), [INTRO], []
        self.aliases = dict(ALIASES)
        for crate, module in [(FACADE, module) for module in MODULES] + BESIDE:
            for item in (it for it in self.library.part(crate, module)[0] if isinstance(it, Item)):
                if item.kind == "type" and "Result<" in item.head:
                    self.aliases[item.name] = error_type("-> " + item.head.partition("= ")[2], {})

    def say(self, *lines):
        self.lines += lines

    def cell(self, words):
        return words.replace("|", "\\|")

    def row(self, item, home):
        """A row of a table: the item, what it is, where it stands if not at home, when its error comes."""
        if not item.doc:
            self.faults.append("%s: %s has no doc comment" % (item.path, item.name))
            return
        error = error_type(item.head, self.aliases) if item.kind == "fn" else None
        words = error_words(item.doc) if error else ""
        if error and not words:
            self.faults.append("%s: the doc comment of %s does not say when its error comes" % (item.path, item.name))
        head = re.sub(r"\(mut self", "(self", re.sub(r"^(pub )?(const )?fn ", "", item.head))
        said = "`%s`: %s" % (error, words) if error else ""
        path = "" if item.path == home else item.path
        self.say("| `%s` | %s | %s | %s |" % tuple(map(self.cell, (head, first_sentence(item.doc), path, said))))

    def table(self, items, home=None):
        if items:
            self.say("", "| Item | What it is | Stands in | Its error |", "|---|---|---|---|")
            for item in items:
                self.row(item, home)

    def type(self, item, at_root):
        """A type or trait, with its members."""
        head = re.sub(r"^pub (struct|enum|trait|type) ", r"\1 ", item.head).partition(" where ")[0]
        self.say("", "### `%s`" % head, "")
        if not item.doc:
            self.faults.append("%s: %s has no doc comment" % (item.path, item.name))
            return
        self.say("%s (%s%s)" % (first_sentence(item.doc), item.path, "; also `%s`" % FACADE if at_root else ""))
        traits = sorted({re.sub(r"^(\w+::)+", "", it) for it in item.traits})
        if traits:
            self.say("", "Traits: %s." % ", ".join("`%s`" % it for it in traits))
        self.table(item.members, item.path)

    def group(self, items, root=()):
        """Items of one module: types with what they hold, then functions and constants. `root` names those that stand at the root too."""
        for kinds in (("struct", "enum", "trait"), ("type",)):
            for item in (it for it in items if it.kind in kinds):
                self.type(item, item.name in root)
        calls = [it for it in items if it.kind in ("fn", "const")]
        if calls and len(calls) < len(items):
            self.say("", "### Functions")
        self.table(calls)

    def module(self, title, crate, module):
        self.say("", "## `%s`" % title, "", first_sentence(self.library.crate(crate).doc(module)))

    def facade(self):
        root = [path[-1] for path in self.library.crate(FACADE).passed[""].values()]
        for module in MODULES:
            self.module("%s::%s" % (FACADE, module), FACADE, module)
            found = self.library.public(FACADE, module)
            own = [it for it in found if isinstance(it, Item)]
            self.group(own, root)
            for low, inner in (it for it in found if not isinstance(it, Item)):
                self.module("%s::%s::%s" % (FACADE, module, inner), low, inner)
                self.group([it for it in self.library.public(low, inner) if it not in own])

    def beside(self, crate, part):
        items, home = self.library.part(crate, part)
        self.module(named(crate, part), crate, home)
        self.group([it for it in items if isinstance(it, Item)])
        inner = [] if part else [name for name, it in self.library.crate(crate).items[""].items() if it.kind == "mod"]
        for module in sorted(inner, key=lambda name: name == "laws"):
            self.module("%s::%s" % (crate, module), crate, module)
            self.group(self.library.public(crate, module))

    def left_out(self):
        """Modules and names of the facade, and what README lists beside it, of which nothing is told."""
        facade = self.library.crate(FACADE)
        told = {it.name for module in MODULES for it in self.library.public(FACADE, module) if isinstance(it, Item)}
        with open(os.path.join(TOP, "README.md")) as text:
            listed = re.findall(r"^- `([\w:]+)`: ", text.read(), re.M)
        names = [it.name for it in facade.items[""].values() if it.name not in MODULES] + [it for it in facade.passed[""] if it not in told]
        beside = [named(*it) for it in BESIDE]
        for name in names + [it for it in listed if it not in beside]:
            self.faults.append("%s is public, and the page leaves it out" % name)

    def text(self):
        self.left_out()
        self.facade()
        for crate, module in BESIDE:
            self.beside(crate, module)
        return "\n".join(self.lines) + "\n"


def main():
    if sys.argv[1:] not in ([], ["--check"]):
        print("usage: api.py [--check]", file=sys.stderr)
        return 2
    page = Page()
    text = page.text()
    if not sys.argv[1:]:
        with open(PAGE, "w") as out:
            out.write(text)
    else:
        with open(PAGE) as out:
            if out.read() != text:
                page.faults.append("docs/API.md is not what the doc comments say: run docs/api.py")
    for fault in page.faults:
        print("api.py: " + fault)
    return 1 if page.faults else 0


if __name__ == "__main__":
    sys.exit(main())
