#!/usr/bin/env python3
"""Says which examples and quotations of the pages and doc comments do not stand in the code, with status 1 if there are any.

usage: examples.py

- An example of a doc comment stands, line for line, in a module of crates/uses, which the gate proves and runs.
- README's program is that of crates/example. CALLING's caller is a module of crates/uses. Any other code in CALLING stands in a module of
  crates/uses too; a line `..` stands for what is left out.
- Each clause that CALLING quotes stands in the function that it names. Each word in its table of words is defined in its module.
"""
import glob
import os
import re
import sys

os.chdir(os.path.join(os.path.dirname(os.path.abspath(__file__)), ".."))


def read(path):
    with open(path) as text:
        return text.read()


def lines_of(text):
    return [line.strip() for line in text.split("\n") if line.strip()]


def stands_in(lines, text):
    """Whether these lines stand in a text one after the other."""
    there = lines_of(text)
    return any(there[i:i + len(lines)] == lines for i in range(len(there) - len(lines) + 1))


def comment_blocks(text):
    """The doc comments of a file."""
    block = []
    for line in text.split("\n") + [""]:
        comment = re.match(r"\s*//[/!] ?(.*)", line)
        if comment:
            block.append(comment[1])
        elif block:
            yield "\n".join(block)
            block = []


def texts_of_uses():
    return [read(path) for path in glob.glob("crates/uses/src/**/*.rt", recursive=True)]


def doc_examples():
    uses = texts_of_uses()
    for path in sorted(glob.glob("crates/*/src/**/*.rt", recursive=True)):
        for block in comment_blocks(read(path)):
            for example in re.findall(r"^```\n(.*?)^```", block, re.S | re.M):
                if not any(stands_in(lines_of(example), text) for text in uses):
                    yield "%s: no module of crates/uses has the example\n%s" % (path, example)


def fenced(path):
    return re.findall(r"^```rust\n(.*?)^```", read(path), re.S | re.M)


def programs():
    if read("crates/example/src/main.rt") not in fenced("README.md"):
        yield "README.md: no program is that of crates/example/src/main.rt"
    for text in fenced("CALLING.md"):
        if text.startswith("//! ") and not any(text == read(path) for path in glob.glob("crates/uses/src/*.rt")):
            yield "CALLING.md: no module of crates/uses is the program that begins with\n" + text.split("\n")[0]


def calls():
    """Code of CALLING that is neither a program nor a list of clauses."""
    uses = texts_of_uses()
    for text in fenced("CALLING.md"):
        if text.startswith("//! ") or "    ensures " in text:
            continue
        for part in re.split(r"^ *\.\.\n", text, flags=re.M):
            if not any(stands_in(lines_of(part), module) for module in uses):
                yield "CALLING.md: no module of crates/uses has\n%s" % part


def spaced(text):
    return " ".join(text.split())


def clauses():
    """Each clause that CALLING quotes stands in a function or ghost item of its name."""
    sources = [read(path) for path in glob.glob("crates/*/src/**/*.rt", recursive=True)]
    for quoted in fenced("CALLING.md"):
        if quoted.startswith("//! "):
            continue
        for part in re.split(r"\n(?=pub fn |ghost |//|\n)", quoted):
            named = re.match(r"(?:pub fn|ghost) (\w+)", part)
            if named:
                heads = [text[m.start():] for text in sources for m in re.finditer(r"\b(?:fn|ghost) %s\b" % named[1], text)]
                whole = [spaced(re.split(r"\n\s*\{\n|\n\s*\}\n|;\n\n", head)[0]) for head in heads]
                for clause in re.split(r"\n    (?=ensures|requires)", part)[1:] or [part]:
                    if not any(spaced(clause).strip(";") in text for text in whole):
                        yield "CALLING.md: nothing that is called %s has\n%s" % (named[1], clause)


def words():
    """Each word in the first table of CALLING is defined in the module of its row."""
    exported = re.findall(r"^pub use Rattle\.(\w+)\.specs\.(\w+)(?: as (\w+))?$", read("crates/yaml_rust2/specs/Lib.antt"), re.M)
    homes = {other or module: "crates/%s/specs/%s.antt" % (crate, module) for crate, module, other in exported}
    for named, said, listed in re.findall(r"^\| (`.*?) \| (.*) \| (`\w+`(?:, `\w+`)*) \|$", read("CALLING.md"), re.M):
        modules = re.findall(r"`(\w+)`", listed)
        lacking = [module for module in modules if module not in homes]
        for module in lacking:
            yield "CALLING.md: yaml_rust2/specs has no module %s" % module
        texts = [read(homes[module]) for module in modules if module not in lacking]
        for word in re.findall(r"`(\w+)", named):
            if not lacking and "`%s` is in the Prelude" % word not in said and not any(re.search(r"^\s*(?:pub )?(?:\w+ )?%s\b" % word, text, re.M) for text in texts):
                yield "CALLING.md: %s is not in %s" % (word, listed)


def main():
    found = [line for kind in (doc_examples, programs, calls, clauses, words) for line in kind()]
    for line in found:
        print("examples.py: " + line)
    return 1 if found else 0


if __name__ == "__main__":
    sys.exit(main())
