#!/usr/bin/env python3
"""Runs the gate on what a change reaches.

usage: part.py COMMIT [FOLDER]

COMMIT is one on which the whole gate passed. A crate is reached if one of its files differs from that commit, or its line in crates.txt,
or if it stands on a crate that is reached by more than its edits. The last commit of this checkout is cloned to FOLDER (else to a folder
beside this one), and there crates that are not reached lose their must-fail edits, and go if no other crate stands on them. Then
`rt ci` runs there.

What is left out is to the byte what passed at COMMIT, as is all that it stands on. The verdict is that of the whole gate all the same.
"""
import os, shutil, subprocess, sys

TOP = os.path.abspath(os.path.join(os.path.dirname(os.path.abspath(__file__)), ".."))


def git(*words, at=TOP):
    return subprocess.run(["git", "-C", at, *words], capture_output=True, text=True, check=True).stdout


def crates(text):
    """The crates of a crates.txt, each with its line and with those that it stands on."""
    found = {}
    for line in text.splitlines():
        head, colon, below = line.partition(":")
        if colon and not line.startswith("#"):
            found[head.split()[0]] = (line.strip(), below.split())
    return found


def reached(commit):
    """The crates that a change since that commit reaches, lowest first."""
    new, old = crates(git("show", "HEAD:crates.txt")), crates(git("show", commit + ":crates.txt"))
    files = git("diff", "--name-only", "--no-renames", commit, "HEAD").splitlines()
    parts = [name.split("/") for name in files if name.startswith("crates/")]
    edited = {words[1] for words in parts if words[2] == "must-fail"}
    changed = {words[1] for words in parts if words[2] not in ("must-fail", "README.md")}
    changed |= {name for name in new if name not in old or new[name][0] != old[name][0]}
    if "HANDLES" in files:
        changed |= set(new)
    more = True
    while more:
        above = {name for name, (_, below) in new.items() if name not in changed and changed & set(below)}
        changed |= above
        more = bool(above)
    return new, [name for name in new if name in changed | edited]


def needed(listed, names):
    """These crates and all that they stand on."""
    found, left = set(), list(names)
    while left:
        name = left.pop()
        if name in listed and name not in found:
            found.add(name)
            left += listed[name][1]
    return found


def main():
    if len(sys.argv) not in (2, 3) or sys.argv[1].startswith("-"):
        sys.exit(__doc__.strip())
    listed, names = reached(sys.argv[1])
    folder = os.path.abspath(sys.argv[2] if len(sys.argv) == 3 else TOP + "-part")
    if not names:
        sys.exit("part: the change reaches no crate")
    if os.path.exists(folder):
        shutil.rmtree(folder)
    subprocess.run(["git", "clone", "-q", TOP, folder], check=True)
    kept = needed(listed, names)
    for name in listed:
        crate = os.path.join(folder, "crates", name)
        if name not in kept:
            shutil.rmtree(crate)
        elif name not in names:
            shutil.rmtree(os.path.join(crate, "must-fail"), ignore_errors=True)
    lines = [line for line in git("show", "HEAD:crates.txt").splitlines()
             if not line.strip() or line.startswith("#") or line.split()[0].rstrip(":") in kept]
    with open(os.path.join(folder, "crates.txt"), "w") as f:
        f.write("\n".join(lines) + "\n")
    git("add", "-A", at=folder)
    git("-c", "user.name=part", "-c", "user.email=part@localhost", "commit", "-qm", "What a change reaches", at=folder)
    print("part: %d of %d crates are reached: %s" % (len(names), len(listed), " ".join(names)), flush=True)
    sys.exit(subprocess.run(["rt", "ci"], cwd=folder).returncode)


if __name__ == "__main__":
    main()
