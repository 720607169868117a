#!/usr/bin/env python3
"""What a sceptic must read: the definitions that the promises rest on, and no others.

The promises are what docs/THEOREMS.md links: a contract as [crate::function] with ../crates/..rt, a theorem as [name]
with ../crates/..antt; and the contracts of the functions for C, of crates/mazhoketh and of crates/mazhoketh_c. Their
words are followed through crates/*/specs. The files to read are printed in the order of crates.txt and of each
specs/Lib.antt: their lines, how many of these are of definitions that a promise rests on (comments left out), and the
path; or only what the named ones rest on, as `tools/believed.py every_run`. --check fails if a promise rests on
something of specs/Code, which is for the contracts of inner functions, or if a definition of specs beside it carries no
promise.
"""
import glob, os, re, sys

USE = r"use Rattle\.(\w+)\.specs\.([\w.]+?)(?:\.\{([^}]*)\}| as ([\w-]+));?$"
SKIP = r"\s*(--|use |pub mod |infix|module )"  # a line that defines nothing
HEAD = r"\s*(abbrev|unfoldable|pub record|pub data) "


def read(path):
    return open(path).read()


def imports(text):
    """what a file's words mean: word -> (crate, module, name), and short name -> (crate, module)"""
    words, short = {}, {}
    for crate, module, names, alias in re.findall(USE, text, re.M):
        short[alias] = (crate, module)
        for name in names.split(", "):
            words[name.split(" as ")[-1].strip("◌")] = (crate, module, name.split(" as ")[0])
    return words, short


def named(text, meaning, here):
    """the definitions that a text names; here: the file that it stands in"""
    words, short = meaning
    for word in re.findall(r"[^\s(){}\[\];,⌜⌝]+", re.sub(r"(--|//).*", "", text)):
        alias, _, name = word.partition(".")
        for key in (words.get(word), (*here, word), alias in short and (*short[alias], name)):
            if key in part_of:
                yield part_of[key]


os.chdir(os.path.dirname(os.path.abspath(__file__)) + "/..")
defined, part_of, meaning, path_of = {}, {}, {}, {}
for path in glob.glob("crates/*/specs/**/[A-Z]*.antt", recursive=True):
    file = (path.split("/")[1], path.split("/specs/")[1][:-5].replace("/", "."))
    path_of[file], meaning[file] = path, imports(read(path))
    for paragraph in read(path).split("\n\n"):  # a definition is a paragraph
        lines = [line for line in paragraph.split("\n") if line and not re.match(SKIP, line)]
        assert len([line for line in lines if re.match(HEAD, line)]) < 2, "two definitions in\n" + paragraph
        if lines:
            key = (*file, re.match(r"\s*(?:(?:abbrev|unfoldable|pub|record|data) )*(\S+)", lines[0]).group(1))
            defined[key] = paragraph
            fields = re.findall(r"^  (?:pub )?(\S+) :", "\n".join(lines[1:]), re.M)  # or constructors
            for part in [key[2], key[2].strip("◌"), *fields]:
                part_of.setdefault((*file, part), key)

exports = glob.glob("crates/mazhoketh/src/*.rt") + glob.glob("crates/mazhoketh_c/src/*.rt")
promises = {(name, path) for path in exports for name in re.findall(r"\bfn (mzk_\w+)", read(path))}
link = r"\[(?:\w+::)?([\w-]+)\](?:\(|: )\.\./(crates/\S+?\.(?:rt|antt))\b"  # in the text, or at its end
promises |= set(re.findall(link, read("docs/THEOREMS.md")))
only = {word for word in sys.argv[1:] if word != "--check"}
wanted = set()
for name, path in promises:
    if only and name not in only:
        continue
    contract, theorem = r"fn %s\(.*?\n *\{" % name, r"^(?:pub )?%s : .*" % name
    said = re.search(contract, read(path), re.S) if path.endswith(".rt") else re.search(theorem, read(path), re.M)
    if said:  # else a link to a file of definitions
        wanted |= set(named(said.group(0), imports(read(path)), (path.split("/")[1], path.split("/")[-1][:-5])))
believed = set()
while wanted:
    key = wanted.pop()
    believed.add(key)
    wanted |= set(named(defined[key], meaning[key[:2]], key[:2])) - believed

total = [0, 0]
for crate in re.findall(r"^(\w+)[^:#\n]*:", read("crates.txt"), re.M):
    for module in re.findall(r"pub mod (\w+)", "".join(map(read, glob.glob("crates/%s/specs/Lib.antt" % crate)))):
        lines = [line for key in believed if key[:2] == (crate, module) for line in defined[key].split("\n")]
        resting = len([line for line in lines if not re.match(r"\s*--", line)])
        if resting:
            sizes = (read(path_of[crate, module]).count("\n"), resting)
            total = [a + b for a, b in zip(total, sizes)]
            print("%5d %5d  %s" % (*sizes, path_of[crate, module]))
print("%5d %5d  in all" % tuple(total))
wrong = ["a promise rests on " + ".".join(key) for key in believed if "Code." in key[1]]
wrong += ["no promise rests on " + ".".join(key) for key in defined.keys() - believed if "Code." not in key[1]]
if "--check" in sys.argv and wrong:
    sys.exit("\n".join(sorted(wrong)))
