#!/usr/bin/env python3
"""Writes the last part of each crate's README.md from the sources: its public names, a program's options, or the modules of tests.

usage: readmes.py           writes these parts; what stands above their heading is written by hand, and stays
       readmes.py --check   writes nothing; says what differs, with status 1

Told are: a crate without README.md, a name that a list lacks, one in it that does not exist, and in the prose above a name in backticks that
stands nowhere. Public names are what src/lib.rt makes public, with the first sentence of its doc comment, and the modules of specs/, with
their words that the contracts of other crates cite, also through a crate that passes a module on.
"""
import api, glob, os, re, sys, textwrap

ROOT = os.path.join(api.TOP, "crates")
CITE = re.compile(r"^(?:ghost )?(?:pub )?use Rattle\.(\w+)\.specs\.(\w+)(?:\.\{([^}]*)\})?(?: as (\w+))?;?$", re.M)
PASS = re.compile(r"^pub use Rattle\.(\w+)\.specs\.(\w+)(?: as (\w+))?$", re.M)
ROW = r'ProgramOption (?:= ProgramOption )?\{\s+name: "(.*?)",\s+takes: "(.*?)",\s+help: "(.*?)"'
LIBRARY = api.Library()


def texts(pattern):
    for path in sorted(glob.glob(os.path.join(ROOT, pattern), recursive=True)):
        with open(path) as text:
            yield os.path.relpath(path, ROOT), text.read()


def cited():
    """For each crate and module of specs/, the words of it that the contracts of other crates cite."""
    homes = {(path.split("/")[0], other or module): (home, module)
             for path, text in texts("*/specs/Lib.antt") for home, module, other in PASS.findall(text)}
    found = {}
    for path, text in texts("*/src/**/*.rt"):
        for crate, module, words, alias in CITE.findall(text):
            crate, module = homes.get((crate, module), (crate, module))
            names = words.split(",") if words else re.findall(r"\b%s\.(\w+)" % alias, text) if alias else []
            if crate != path.split("/")[0]:
                found.setdefault((crate, module), set()).update(name.strip() for name in names if name.strip())
    return found


def line(name, doc, more=()):
    """A line of a list: a name with the first sentence of its comment, and with further names."""
    said = "- `%s`: %s" % (name, api.first_sentence(doc) if doc else "") + (" %s." % ", ".join("`%s`" % it for it in more) if more else "")
    kept = re.sub("`[^`]+`", lambda span: span[0].replace(" ", "\0"), said)
    return textwrap.fill(kept, 140, subsequent_indent="  ", break_long_words=False, break_on_hyphens=False).replace("\0", " ")


def groups(name, found):
    """What is public in a library, in groups: each a title and its lines."""
    it = LIBRARY.crate(name)
    root = [item for item in LIBRARY.public(name) if isinstance(item, api.Item)]
    modules, laws, passed, specs = [], [], [], []
    for module in re.findall(r"^pub mod (\w+);", it.files[""], re.M):
        inside = [item for item in LIBRARY.public(name, module) if isinstance(item, api.Item) and item not in root]
        if module == "laws" or name.startswith("proof_"):
            laws += [line(item.name, item.doc) for item in inside if item.path.startswith(name + "/")]
            passed += [item.path.split("/")[0] for item in inside if not item.path.startswith(name + "/")]
        elif inside and it.doc(module):
            modules.append(line(module, it.doc(module), sorted(item.name for item in inside)))
        else:
            modules += [line(module + "::" + item.name, item.doc) for item in inside]
    for path, text in texts(name + "/specs/*.antt"):
        doc = [it[3:] for it in re.match(r"(?:-- .*\n)*", text)[0].split("\n")[:-1]]
        words = sorted(found.get((name, os.path.basename(path)[:-5]), ()))
        if doc and (words or not name.startswith("yaml") and "the contract of the function" not in " ".join(doc)):
            specs.append(line(os.path.basename(path)[:-5], doc, words))
    yield "Types and traits:", [line(item.name, item.doc) for item in root if item.kind not in ("fn", "const")]
    yield "Functions and constants:", [line(item.name, item.doc) for item in root if item.kind in ("fn", "const")]
    calls = api.documented(it.files[""].split("\n"), re.compile(r'pub extern "C" fn (\w+)'))
    yield "Functions for C:", [line(call[1], doc) for _, call, doc in calls]
    yield "Modules, and what is public in them alone:", modules
    yield "Laws:", laws
    numbers = ", ".join("%d of `%s`" % (passed.count(home), home) for home in sorted(set(passed)))
    yield "Laws of other crates, in the module `laws`:", [textwrap.fill("- " + numbers, 140, subsequent_indent="  ")] if passed else []
    yield "Modules of `specs/`, with the words that contracts of other crates cite:", specs


def part(name, found):
    """The part of a crate's README.md that is written here. A program's options are those of its help."""
    own = "\n".join(text for _, text in texts(name + "/src/*.rt"))
    if name + "/src/main.rt" in dict(texts(name + "/src/*.rt")):
        source = own + "\n".join(text for _, text in texts("yaml_programs/src/*.rt"))
        table = {const: row for const, *row in re.findall(r"const (\w+): " + ROW, source)}
        listed = re.findall(r"(?:OPTIONS: &\[ProgramOption\] =|options:) &\[([A-Z_,\s]*)\]", own)
        rows = [table[const] for const in re.findall(r"\w+", listed[0])] + re.findall(r"^    " + ROW, source, re.M) if listed else []
        return "".join(["## Options\n\n"] * bool(rows) + ["- `%s`: %s\n" % ((word + " " + takes).strip(), text) for word, takes, text in rows])
    shown = [title + "\n\n" + "\n".join(lines) + "\n" for title, lines in groups(name, found) if lines]
    modules = [line(it, LIBRARY.crate(name).doc(it)) for it in sorted(LIBRARY.crate(name).files) if it]
    return "## Public names\n\n" + "\n".join(shown) if shown else "## Modules\n\n" + "\n".join(modules) + "\n"


def main():
    found, faults = cited(), []
    known = {word for _, text in texts("*/s*/**/*.[ar]*t") for word in re.findall(r"\w+", text)}
    for name in sorted(os.listdir(ROOT)):
        path, want = os.path.join(ROOT, name, "README.md"), part(name, found)
        page = dict(texts(name + "/README.md")).get(name + "/README.md", "")
        prose, have = re.match(r"(.*?)(^## (?:Public names|Options|Modules)\n.*)?\Z", page, re.M | re.S).groups(default="")
        if not re.match(r"# `%s`\n\n[\w`]" % name, prose):
            faults.append("%s: no README.md that begins with the crate's name, and then says what it is for" % name)
        elif not sys.argv[1:]:
            with open(path, "w") as out:
                out.write(prose.rstrip("\n") + "\n" + ("\n" + want if want else ""))
        elif have != want:
            names, wanted = (set(re.findall(r"`([^`]+)`", it)) for it in (have, want))
            faults += ["%s: the list lacks `%s`" % (name, it) for it in sorted(wanted - names)]
            faults += ["%s: the list has `%s`, which is none" % (name, it) for it in sorted(names - wanted)]
            faults.append("%s: the list is not what docs/readmes.py writes" % name)
        for span in re.findall(r"`(\w[\w.:/-]*)`", prose):
            paths = [os.path.join(top, span) + end for top in (os.path.join(ROOT, name), ROOT, api.TOP) for end in ("", ".antt")]
            if span.split("::")[-1] not in known and not span.startswith("out/") and not any(map(os.path.exists, paths)):
                faults.append("%s: `%s` stands nowhere" % (name, span))
    print("".join("readmes.py: %s\n" % fault for fault in faults), end="")
    return 1 if faults else 0


if __name__ == "__main__":
    if sys.argv[1:] not in ([], ["--check"]):
        sys.exit("usage: readmes.py [--check]")
    sys.exit(main())
