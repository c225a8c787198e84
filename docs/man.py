#!/usr/bin/env python3
"""Writes the manual pages docs/man/*.1 from what the programs print for --help and --version.

usage: man.py [PROGRAM..]           writes the pages
       man.py --check [PROGRAM..]   writes nothing; says which page is not what would be written, with status 1

A PROGRAM is the path of yamltool, yamljson or yamlcheck. Without one these are crates/NAME/out/NAME, which `rt run` leaves there.
Either way a version other than that of CHANGELOG.md is told, with status 1.

A help is the line `NAME: ABOUT`, the usage, the options, a line each with two blanks or more before its text, and notes, with an empty line
between two of these parts.
"""
import os
import re
import subprocess
import sys

TOP = os.path.join(os.path.dirname(os.path.abspath(__file__)), "..")
FOLDER = os.path.join(TOP, "docs", "man")
NAMES = ["yamltool", "yamljson", "yamlcheck"]


def plain(text):
    """A text for troff, in which it stands as it is."""
    text = text.replace("\\", "\\e").replace("-", "\\-")
    return re.sub(r"^([.'])", r"\\&\1", text, flags=re.M)


def printed(program, word):
    return subprocess.run([program, word], capture_output=True, text=True, check=True, stdin=subprocess.DEVNULL).stdout


def option(line):
    """An option with what it takes, and its text."""
    form, text = re.fullmatch(r"  (.*?) {2,}(.*)", line).groups()
    return [".TP", ".B " + plain(form), plain(text)]


def page(help_text, version):
    head, usage, options, notes = help_text.split("\n\n", 3)
    name, about = head.split(": ", 1)
    lines = ['.TH %s 1 "" "%s"' % (name.upper(), version), ".SH NAME", "%s \\- %s" % (name, plain(about))]
    lines += [".SH SYNOPSIS", ".nf", plain(usage.removeprefix("usage: ")), ".fi", ".SH OPTIONS"]
    for line in options.split("\n")[1:]:
        lines += option(line)
    lines += [".SH DESCRIPTION", ".nf", plain(notes.rstrip("\n")), ".fi"]
    return "\n".join(lines) + "\n"


def newest_version():
    with open(os.path.join(TOP, "CHANGELOG.md")) as text:
        return re.search(r"^## ([\w.]+)", text.read(), re.M)[1]


def main():
    words = sys.argv[1:]
    is_check = words[:1] == ["--check"]
    programs = words[is_check:] or [os.path.join(TOP, "crates", name, "out", name) for name in NAMES]
    if any(os.path.basename(program) not in NAMES for program in programs):
        print("usage: man.py [--check] [PROGRAM..]", file=sys.stderr)
        return 2
    faults = []
    for program in programs:
        name = os.path.basename(program)
        version = printed(program, "--version").rstrip("\n")
        text = page(printed(program, "--help"), version)
        path = os.path.join(FOLDER, name + ".1")
        if version != "%s %s" % (name, newest_version()):
            faults.append("%s --version prints %r, and CHANGELOG.md has %s" % (name, version, newest_version()))
        if not is_check:
            os.makedirs(FOLDER, exist_ok=True)
            with open(path, "w") as out:
                out.write(text)
        elif not os.path.exists(path) or open(path).read() != text:
            faults.append("docs/man/%s.1 is not what --help says: run docs/man.py" % name)
    for fault in faults:
        print("man.py: " + fault)
    return 1 if faults else 0


if __name__ == "__main__":
    sys.exit(main())
