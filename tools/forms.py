#!/usr/bin/env python3
"""Counts the places in crates/*/src where an older form stands: forms.py [-l] [POINT..], at the top of the repository.

One line a count; with -l every place too. docs/DESIGN-PASS.md says what each point means.
  1  own enums; numbers that stand for kinds; replies by number
  2  functions that are the same but for names, types and constants
  3  loops that count by hand
  4  conversions and copies by hand
  5  facts that three or more functions require; parameters that travel together
  6  lists and arrays with their count beside them
  7  switches on which step to run
"""
import collections
import glob
import re
import sys

WORD = re.compile(r"[A-Za-z_]\w*|\d+|\S")
TYPES = {"u8", "u16", "u32", "u64", "usize", "i8", "i16", "i32", "i64", "isize"}
KEEP = {"fn", "let", "mut", "if", "else", "while", "for", "in", "return", "match", "as", "loop", "true", "false", "pub"}


def files():
    for path in sorted(glob.glob("crates/*/src/**/*.rt", recursive=True)):
        with open(path) as f:
            yield path, f.read()


def inside(text, start):
    """What stands between the first round bracket from a place on and the one that closes it, with both."""
    first = text.find("(", start)
    depth = 0
    for i in range(first, len(text)):
        depth += (text[i] == "(") - (text[i] == ")")
        if depth == 0:
            return text[first:i + 1]
    return text[first:]


def functions():
    """Each function: where it stands, its name, its parameters' names, its clauses, its body."""
    head = re.compile(r"^( *)(?:pub(?:\(\w+\))? )?(?:const )?(?:extern \"C\" )?fn (\w+)", re.M)
    for path, text in files():
        for m in head.finditer(text):
            end = text.find("\n" + m.group(1) + "}", m.start())
            whole = text[m.start():end if end > 0 else len(text)]
            opens = re.search(r"\n" + m.group(1) + r"\{\n", whole)
            signature, body = (whole[:opens.start()], whole[opens.end():]) if opens else (whole, "")
            parameters = inside(whole, m.end() - m.start())
            names = re.findall(r"(?:^|[(,\n])\s*(?:mut )?(&?(?:mut )?self|\w+)\s*(?::|(?=[,)]))", parameters)
            line = text.count("\n", 0, m.start()) + 1
            yield f"{path}:{line}", m.group(2), names, signature, body


def lines(pattern, skip=None):
    places = []
    for path, text in files():
        for n, line in enumerate(text.split("\n"), 1):
            code = line.split("//")[0]
            if "ghost use" not in code and re.search(pattern, code) and not (skip and re.search(skip, code)):
                places.append(f"{path}:{n}: {line.strip()}")
    return places


def shape(body):
    """A body with its names numbered in the order of their first use, its types and numbers blank."""
    seen, out = {}, []
    for w in WORD.findall(re.sub(r"//.*", "", body)):
        if w in KEEP or not re.match(r"\w", w):
            out.append(w)
        elif w in TYPES or w.isdigit():
            out.append("0")
        else:
            out.append("x%d" % seen.setdefault(w, len(seen)))
    return " ".join(out)


def twins():
    same = collections.defaultdict(list)
    for place, name, _, _, body in functions():
        if "mazhoketh_c/" not in place and body.count("\n") >= 3:
            same[shape(body)].append(f"{place}: {name}")
    return [" ~ ".join(group) for group in same.values() if len(group) > 1]


def facts():
    """Facts that stand in the requires of three or more functions, names blank."""
    found = collections.defaultdict(set)
    for place, name, _, signature, _ in functions():
        for clause in re.findall(r"requires\s*(?:\w+ )?\{(.*?)\}", signature, re.S):
            for fact in re.split(r"\s×\s", clause):
                found[re.sub(r"\.(now|old|new)\b|[()\s]", " ", fact).strip()].add(f"{place} {name}")
    return [f"{fact}: {len(who)} functions" for fact, who in sorted(found.items()) if len(who) >= 3]


def together(*wanted):
    return [f"{place}: {name}" for place, name, names, _, _ in functions() if set(wanted) <= set(names)]


def many(n):
    return [f"{place}: {name} ({len(names)})" for place, name, names, _, _ in functions() if len(names) >= n]


def beside():
    """Functions that take a list or an array, and beside it how many of its places are meant."""
    found = []
    for place, name, _, signature, _ in functions():
        parameters = signature.split("requires")[0].split("ensures")[0]
        if re.search(r"\b(count|m|tail|size|entries|len): (usize|u32)", parameters) and re.search(r"&('\w+ )?(mut )?\[", parameters):
            found.append(f"{place}: {name}")
    return found


POINTS = {
    "1": [
        ("own enums", lambda: lines(r"^\s*(pub(\(\w+\))? )?enum ")),
        ("numbers for kinds", lambda: lines(r"^pub const [A-Z]+: u32 = \d+;$")),
        ("replies by an own enum", lambda: lines(r"\bVerdict::|Response::Refused|Sets::Refused")),
    ],
    "2": [("groups of functions of one shape", twins)],
    "3": [("while loops", lambda: lines(r"^\s*while "))],
    "4": [
        ("own widening, least, signs, copies", lambda: lines(r"fn (wide\w*|least|[ot][of]_[ui]\d+|read_u\d+|write_u\d+|copy)\b")),
        ("fields set to a variable of their name", lambda: lines(r"^\s*(\w+): \1,$")),
    ],
    "5": [
        ("facts that three or more functions require", facts),
        ("functions of starts and columns", lambda: together("starts", "columns")),
        ("functions of order and groups", lambda: together("order", "groups")),
        ("functions of seven or more parameters", lambda: many(7)),
    ],
    "6": [("functions of a list and its count", beside)],
    "7": [("functions that take what to do", lambda: [f"{p}: {n}" for p, n, names, _, _ in functions() if {"call", "rule"} & set(names)])],
}


def main():
    wanted = [a for a in sys.argv[1:] if a != "-l"] or sorted(POINTS)
    for point in wanted:
        for what, places in POINTS[point]:
            found = places()
            print(f"{point}\t{len(found)}\t{what}")
            if "-l" in sys.argv:
                for place in found:
                    print("\t" + place)


main()
