#!/usr/bin/env python3
"""What the gate spent its time on, as a table.

    rt ci | tools/times.py --write LOG      passes on what `rt ci` prints, and writes it to LOG, each line behind the
                                            seconds since it began
    tools/times.py LOG                      the table

One row a crate, dearest first: when it was proved, and how many seconds after the last of its libraries that was, which
counts the wait for a processor too; when its tests were; how many functions it has, and how many must-fail edits were
refused. A crate that an earlier run proved is `kept`. The edits are tried beside the proofs and told at the end, so
they have no times of their own.
"""
import os
import re
import sys
import time

CRATES = os.path.join(os.path.dirname(os.path.abspath(__file__)), "..", "crates.txt")
PROVED = re.compile(r"rt: (\w+)(: its tests are| is)? (proved|kept)\b")
COUNTED = re.compile(r"logic=proved functions=(\d+)")
REFUSED = re.compile(r"rt: must-fail (\w+)/\S+: refused, as it must be")


def write(path):
    """Passes the lines of standard input on, and writes each with its seconds."""
    began = time.monotonic()
    with open(path, "w") as log:
        for line in sys.stdin:
            print(line, end="", flush=True)
            print("%d\t%s" % (time.monotonic() - began, line), end="", file=log, flush=True)


def libraries(path):
    """crate -> the crates that it uses, in the order of crates.txt"""
    lines = [line.split("#")[0].partition(":") for line in open(path)]
    return {name.split()[0]: uses.split() for name, _, uses in lines if name.strip()}


def read(path):
    """The seconds of the whole, and crate -> what its row says."""
    crates, functions, last = {}, 0, 0
    for line in open(path, errors="replace"):
        seconds, _, text = line.partition("\t")
        last = int(seconds)
        counted, proved, refused = COUNTED.match(text), PROVED.match(text), REFUSED.match(text)
        if counted:
            functions = int(counted[1])
        if proved and proved[2] == ": its tests are":
            row(crates, proved[1])["tests"] = last
        elif proved:
            row(crates, proved[1]).update(done=last, kept=proved[3] == "kept", functions=functions)
        if refused:
            row(crates, refused[1])["edits"] += 1
    return last, crates


def row(crates, name):
    return crates.setdefault(name, {"done": 0, "kept": False, "tests": None, "functions": 0, "edits": 0})


def main():
    if len(sys.argv) == 3 and sys.argv[1] == "--write":
        return write(sys.argv[2])
    if len(sys.argv) != 2:
        sys.exit("usage: times.py [--write] LOG")
    last, crates = read(sys.argv[1])
    uses = libraries(CRATES)
    for name, it in crates.items():
        below = [crates[lib]["done"] for lib in uses.get(name, []) if lib in crates]
        it["took"] = 0 if it["kept"] else it["done"] - max(below, default=0)
    print("%-12s %8s %8s %8s %9s %6s" % ("crate", "at s", "took s", "tests s", "functions", "edits"))
    for name, it in sorted(crates.items(), key=lambda item: -item[1]["took"]):
        tests = "" if it["tests"] is None else it["tests"]
        functions = "kept" if it["kept"] else it["functions"]
        print("%-12s %8d %8d %8s %9s %6d" % (name, it["done"], it["took"], tests, functions, it["edits"]))
    edits = sum(it["edits"] for it in crates.values())
    functions = sum(it["functions"] for it in crates.values() if not it["kept"])
    print("%-12s %8d %8s %8s %9d %6d" % ("all", last, "", "", functions, edits))


main()
