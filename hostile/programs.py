#!/usr/bin/env python3
"""Refuses each request for memory of programs in turn, and counts.

usage: programs.py YAMLTOOL [YAMLBATCH]

Each command is run with its first request refused, then with its second, and so on, up to a run that asks less often; and again with
all requests from that one on refused. A run of YAMLTOOL must end with status 1, one line on standard error, which is a fault of `out
of memory` or `yamltool: out of memory`, and on standard output a beginning of what it prints else. A run of YAMLBATCH, whose commands
scan, load, dump and decode, must end without a signal and otherwise than it does else. Prints what doesn't, and how many requests
were refused of each command.
"""
import os, subprocess, sys, tempfile

import refuse

HERE = os.path.dirname(os.path.abspath(__file__))
OCTETS = [b"---\na\xa9: 1\nb: 2.2\nc: [1, 2]\n", b"\xff\xfe\x00\xd8a\x00", "\ufeffa: [b, \u00e9]\n".encode("utf-16-be")]
LINES = ("out of memory at byte ", "yamltool: out of memory\n")


class Refuser:
    def __init__(self, directory):
        self.directory, self.count = directory, os.path.join(directory, "count")
        self.shim = os.path.join(directory, "preload.so")
        subprocess.run(["gcc", "-O2", "-shared", "-fPIC", "-o", self.shim, os.path.join(HERE, "preload.c"), "-ldl"], check=True)

    def run(self, command, given, at, for_good):
        """What the run printed and answered, and how many requests it made."""
        env = {"LD_PRELOAD": self.shim, "REFUSE_AT": str(at), "REFUSE_COUNT": self.count}
        if for_good:
            env["REFUSE_ALL"] = "1"
        if os.path.exists(self.count):
            os.remove(self.count)
        ran = subprocess.run(command, input=given, capture_output=True, env=env, cwd=self.directory)
        asked = int(open(self.count).read()) if os.path.exists(self.count) else at
        return ran, asked

    def all(self, command, given, is_well):
        """How many requests were refused; prints what isn't well."""
        whole, _ = self.run(command, given, 0, False)
        refused = 0
        for for_good in (False, True):
            at = 1
            while True:
                ran, asked = self.run(command, given, at, for_good)
                if asked < at:
                    break
                refused += 1
                why = is_well(whole, ran)
                if why:
                    print("%s, request %d%s: %s" % (" ".join(command), at, " and all after it" if for_good else "", why))
                at += 1
        return refused


def is_answered(whole, ran):
    """Why a run of yamltool isn't as it must be, or None."""
    line = ran.stderr.decode()
    if ran.returncode != 1:
        return "status %d" % ran.returncode
    if line.count("\n") != 1 or not line.startswith(LINES):
        return "on standard error: %r" % line
    if not whole.stdout.startswith(ran.stdout):
        return "on standard output: %r" % ran.stdout
    return None


def is_ended(whole, ran):
    if ran.returncode < 0:
        return "signal %d" % -ran.returncode
    return "it answers all the same" if (ran.returncode, ran.stdout) == (whole.returncode, whole.stdout) else None


def main():
    if len(sys.argv) not in (2, 3):
        sys.exit(__doc__)
    programs = [os.path.abspath(p) for p in sys.argv[1:]]
    with tempfile.TemporaryDirectory() as directory:
        refuser, texts, lists = Refuser(directory), [], []
        for i, text in enumerate(refuse.INPUTS):
            texts.append(os.path.join(directory, "%02d" % i))
            with open(texts[-1], "w") as f:
                f.write(text)
        for i, units in enumerate(OCTETS):
            lists.append(os.path.join(directory, "octets%d" % i))
            with open(lists[-1], "wb") as f:
                f.write(units)
        counts = {}
        for words in (["events"], ["dump"], ["dump", "--spread", "--multiline"]):
            counts["yamltool " + " ".join(words)] = sum(refuser.all([programs[0], *words, text], b"", is_answered) for text in texts)
        single = [t for t in texts if subprocess.run([programs[0], "overlay", t, t], capture_output=True).returncode == 0]
        counts["yamltool overlay"] = sum(refuser.all([programs[0], "overlay", a, b], b"", is_answered) for a, b in zip(single, single[1:]))
        for words in ["tokens"], ["debug"], ["dump", "--multiline"], *(["decode", trap] for trap in ("ignore", "strict", "replace", "call", "stop")):
            if len(programs) > 1:
                paths = lists if words[0] == "decode" else texts
                counts["yamlbatch " + " ".join(words)] = sum(refuser.all([programs[1], *words], (path + "\n").encode(), is_ended) for path in paths)
    for name, count in counts.items():
        print("%8d  %s" % (count, name))
    print("%8d  requests refused in all" % sum(counts.values()))


if __name__ == "__main__":
    main()
