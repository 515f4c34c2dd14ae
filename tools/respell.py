#!/usr/bin/env python3
"""Brings the names of this repository's own definitions and lemmas to the spelling of today's Rattle, once, after the
kit's porting script: types in upper camel case, all else in snake case.

    tools/respell.py [--list]

A name is this repository's own where a file of specs/ or proofs/ declares it. Goals keep the names that Rattle gives them,
and what a file takes from the kit's library keeps its spelling. In .rt files only clauses and ghost lines are turned, and in pages what stands between
backticks. Run at the top of the repository; needs only python3.
"""
import collections, glob, os, re, sys

WORD = r"[A-Za-z_'][\w'\-]*"
MARKS = r"(?:(?:pattern|unfoldable|abbrev|pub|axiom)\s+)*"

def read(path):
    with open(path, encoding="utf-8") as file:
        return file.read()

# The files of a kind, lowest path first.
def files(*patterns):
    return sorted(p for pattern in patterns for p in glob.glob(pattern, recursive=True) if os.path.isfile(p))

# The names that a line of a file of definitions declares, and whether they are goals.
def declared(line):
    if re.match(r"\s*(--|use )", line):
        return [], False
    types = re.match(r"\s*(?:pub\s+)?(?:record|data)\s+(\S+)", line)
    if types:
        return [types.group(1)], False
    terms = re.match(rf"\s{{0,4}}{MARKS}([^:(){{}}λ=→;]+?)\s*:(?!\w)(.*)$", line)
    if terms:
        return terms.group(1).split(), bool(re.match(r"\s*(goal|need|given)\.", terms.group(2)))
    return [], False

# Each own name and how it is spelled from now on.
def respelled():
    own, goals = set(), set()
    for path in files("crates/*/specs/**/*.antt", "crates/*/proofs/**/*.antt"):
        for line in read(path).splitlines():
            names, are_goals = declared(line)
            if are_goals:
                goals.update(names)
            elif os.path.basename(path) != "Invariants.antt":
                own.update(n for n in names if re.fullmatch(WORD, n))
    own.add("flagOf")  # a name under which .rt files import one of them
    return {n: turned(n) for n in sorted(own - goals) if turned(n) != n}

# A name that begins with the type that its lemma is about keeps its dash, and a word of the older library goes.
SINGLE = {"T-both": "T-both", "T-either": "T-either", "getD-mea1": "index_mea1", "getD-onto": "index_onto"}

def turned(name):
    if name in SINGLE:
        return SINGLE[name]
    if name[0].isupper():
        head, *rest = name.split("-")
        return head + "".join(part[:1].upper() + part[1:] for part in rest)
    return re.sub(r"(?<=[a-z0-9])([A-Z])", lambda m: "_" + m.group(1).lower(), name.replace("-", "_"))

# What a file takes from the kit's library.
def of_library(text):
    names = set()
    for module, listed in re.findall(r"use (Rattle\.std[\w.]*|Prim[\w.]*)\.\{([^}]*)\}", text):
        for item in listed.split(","):
            names.add(item.split(" as ")[0].strip())
            names.add(item.split(" as ")[-1].strip())
    return names

def turn(text, names):
    return re.sub(rf"(?<![\w'\-«]){WORD}", lambda m: names.get(m.group(0), m.group(0)), text)

# A .rt file: its ghost lines and clauses alone.
def turn_source(text, names):
    out, depth = [], 0
    for line in text.splitlines(keepends=True):
        begins = re.match(r"\s*(pub )?(ghost|ensures|requires|invariant|also_)", line)
        if depth > 0 or begins:
            code = line if not line.lstrip().startswith("//") else ""
            depth = max(0, depth + code.count("{") - code.count("}")) if not line.lstrip().startswith("ghost use") else 0
            out.append(turn(line, names))
        else:
            out.append(line)
    return "".join(out)

# A page: what stands between backticks.
def turn_page(text, names):
    return re.sub(r"`[^`\n]+`", lambda m: turn(m.group(0), names), text)

def main():
    names = respelled()
    if "--list" in sys.argv:
        for old, new in names.items():
            print(f"{old} {new}")
        fall = collections.Counter(names.values())
        print("fall together:", [n for n, k in fall.items() if k > 1], file=sys.stderr)
        return
    kinds = {".rt": turn_source, ".antt": turn, ".md": turn_page}
    for path in files("crates/*/specs/**/*.antt", "crates/*/proofs/**/*.antt", "crates/*/src/**/*.rt", "README.md", "docs/*.md"):
        text = read(path)
        kept = of_library(text)
        mine = {o: n for o, n in names.items() if o not in kept}
        new = kinds[os.path.splitext(path)[1]](text, mine)
        if new != text:
            with open(path, "w", encoding="utf-8") as file:
                file.write(new)

main()
