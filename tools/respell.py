#!/usr/bin/env python3
"""Spells the repository's own definitions and lemmas as today's Rattle does: words in snake case.

    tools/respell.py [--check]      at the top of the repository, after the toolchain's port.py

A word in camel case, as isIn, becomes is_in. A dash stays where it joins two names of functions, as in is_in-append, and
becomes _ where it adds a plain word, as in rows-graph, and in every name of specs/. The module `code` becomes `Code`.
Names of src/ stay, and so do strings. Where two names of one file would fall together the script says so and writes
nothing; --check writes nothing either way.
"""
import collections, glob, os, re, subprocess, sys

WORD = re.compile(r"(?:[\w'·◌]|-(?=[\w'·◌]))+")
HEAD = re.compile(r"^\s*(?:(?:abbrev|unfoldable|pub|record|data|ruleset) )*([^\s:(){}]+) +:(?= |$)")
LIBRARY = set("""length append take drop get_or map range set replicate concat filter reverse sum nil cons add mul sub div
mod le lt eq min max suc zero and or not any all snoc cond ltb leb eqb bit pos negsuc abs get fits""".split())


# names of the toolchain's own libraries that a crate here has too
KEPT = {"and-true", "returns-2"}

# fields of records, which two crates write in their proofs
FIELDS = {("crews", "in_order"), ("control", "in_bytes")}


def snake(part):
    """isIn -> is_in; a part that begins with a capital is a type and stays"""
    if not re.match(r"[a-z]", part) or not re.search(r"[A-Z]", part) or "_Is" in part:
        return part
    part = re.sub(r"(?<=[a-z0-9'])([A-Z])(?=[a-z])", lambda m: "_" + m.group(1).lower(), part)
    part = re.sub(r"(?<=[a-z0-9])([A-Z])", lambda m: "_" + m.group(1).lower(), part)
    return part.replace("__", "_")


def files(*kinds):
    for kind in kinds:
        yield from glob.glob("crates/*/" + kind, recursive=True)


def defined(pattern):
    names = set()
    for path in files(pattern):
        if not path.endswith("/Proof.antt"):
            for line in open(path):
                m = HEAD.match(line)
                if m and not line.lstrip().startswith("--"):
                    names.add(m.group(1))
                names |= set(re.findall(r"(?<=[{(; ])pub (\S+) :", line))
    return names


def main(argv):
    os.chdir(os.path.dirname(os.path.abspath(__file__)) + "/..")
    specs, proofs = defined("specs/**/*.antt"), defined("proofs/**/*.antt")
    functions = {snake(it) for it in specs if "-" not in it} | LIBRARY
    taken = {snake(it) for it in specs | proofs if "-" not in it}  # a dash stays where the name without it is taken
    turned = {}

    def turn(word):
        if word in turned:
            return turned[word]
        parts = [snake(it) for it in word.split("-")]
        new = parts[0]
        for left, right in zip(parts, parts[1:]):
            join = "-"
            if word in specs or (word in proofs and not (left in functions and right in functions)):
                join = "_" if re.search(r"\w$", left) and re.match(r"\w", right) else "-"
            new += join + right
        if word in KEPT or ("-" in word and new in taken):
            new = "-".join(parts)
        turned[word] = new
        return new

    camel = {snake(it) for it in specs | proofs if snake(it) != it}
    # a lemma that would have its function's name gets _lem, but for two that are fields
    lemmas = {it for it in proofs if it in camel} - {"starts_first", "one_more"}

    texts, together = {}, []
    for path in files("specs/**/*.antt", "proofs/**/*.antt", "src/**/*.rt", "must-fail/*.edit") :
        text = old = open(path).read()
        pieces = re.split(r'("(?:[^"\\\n]|\\.)*")', text) if not path.endswith(".edit") else [text]
        seen = collections.defaultdict(set)
        for k in range(0, len(pieces), 2):
            def one(m):
                new = turn(m.group(0))
                if new in lemmas and new == m.group(0) and "/proofs/" in path and (path.split("/")[1], new) not in FIELDS and (m.string[m.start() - 1 : m.start()] != "." or m.string[m.start() - 4 : m.start()] == "own."):
                    new += "_lem"
                seen[new].add(m.group(0))
                return new
            pieces[k] = re.sub(r"((?:use )?Rattle(?:\.[\w'+-]+)*\.)|" + WORD.pattern, lambda m: m.group(0) if m.group(1) else one(m), pieces[k])
        text = "".join(pieces)
        text = re.sub(r"(Rattle\.\w+\.specs\.)code(?=\.)", r"\1Code", text)
        if path.endswith("specs/Lib.antt"):
            text = re.sub(r"^(pub mod|mod) code$", r"\1 Code", text, flags=re.M)
        for new, olds in seen.items():
            if len(olds) > 1 and "/src/" not in path and "/Proof" not in path:  # a function of src/ keeps its name
                together.append("%s: %s" % (path, " and ".join(sorted(olds)) + " would be " + new))
        if text != old:
            texts[path] = text
    print("\n".join(together))
    if together or "--check" in argv:
        return 1 if together else 0
    for path, text in texts.items():
        open(path, "w").write(text)
    for path in glob.glob("crates/*/specs/code.antt") + glob.glob("crates/*/specs/code"):
        subprocess.check_call(["git", "mv", path, path.replace("/code", "/Code")])
    print("%d files" % len(texts))


if __name__ == "__main__":
    raise SystemExit(main(sys.argv[1:]))
