#!/usr/bin/env python3
"""Counts the places in crates/*/src that docs/DESIGN-PASS.md speaks of, a pattern or a count for each point.

    tools/places.py [CRATE..]           counts, crate by crate
    tools/places.py --list [CRATE..]    each place with its file and line too

A place is a candidate: the page says which were changed, and a line of comment in the code says why one is kept.
Run it at the top of the repository, or in a copy of an older commit to count there.
"""
import collections
import pathlib
import re
import sys

PATTERNS = {
    "1 own enums": r"^\s*(pub(\(crate\))? )?enum \w+",
    "1 bool that answers done or not": r"&mut self.*-> bool|^\s*\) -> bool|Result<bool",
    "1 numbers for kinds, places, reports": r"\b(kind|level|stance|number|report|closed|position)\b: (u8|usize)|-> (u8|Option<u8>)$",
    "2 names that differ in a width": r"fn \w*u(8|16|32|48|64|128)\w*[(<]",
    "2 names that differ in a station": r"\b\w+_(a|b): ",
    "3 while": r"\bwhile\b",
    "3 for over a range": r"\bfor \w+ in [^{]*\.\.",
    "3 enumerate": r"\.enumerate\(\)",
    "4 fields compared one by one": r"\(\w[\w.]* == \w[\w.]*\)\s*&|&\s*\(+\w[\w.]* == \w[\w.]*\)",
    "4 conversions by hand": r"fn (from_octets|octets|number|position|known_kind|level_modes|key|text|verb|sixteen|yes_or_no|station_name|hex_digit|digit|shown|of_u\d+|to_u\d+|done|sent|handed|declared|said|joined)\b",
    "4 printing by hand": r"fn (show_\w+|print_\w+|written)\b",
    "6 lent or fixed buffers with a length or a fill": r"\b(length|filled|count|needed): usize",
    "6 fixed arrays as locals or fields": r"(: \[|= \[)[^\]]*; ?\d+\]",
    "7 chains of tests on a word": r"else if (is\(|\w+ == b?\")",
    "7 match on a name of a station": r"(Name|Side)::A =>",
}


def sources(crate):
    return sorted(p for p in (crate / "src").rglob("*.rt"))


def crates(names):
    root = pathlib.Path("crates")
    found = [line.split(":")[0].split()[0] for line in open("crates.txt") if line.split("#")[0].strip()]
    return [root / name for name in found if not names or name in names]


def functions(text):
    """Each signature with its clauses: from `fn` to the `{` or `;` that ends it at the margin."""
    return re.findall(r"^( *)(?:pub(?:\([a-z]+\))? )?fn (\w+)(.*?)^\1[{};]|^ *fn \w+.*;$", text, re.S | re.M)


def clauses(crate):
    seen = collections.Counter()
    for path in sources(crate):
        for clause in re.findall(r"^\s*(?:requires|ensures)\*?(?: \w+)? \{ (.*) \}$", path.read_text(), re.M):
            seen[clause] += 1
    return {clause: n for clause, n in seen.items() if n >= 3}


def parameters(crate):
    """Pairs of parameters, by name and type, that stand together in four signatures or more."""
    seen = collections.Counter()
    for path in sources(crate):
        for signature in re.findall(r"fn \w+(?:<[^>(]*>)?\((.*?)\)\s*(?:->|\{|where|requires|ensures|;)", path.read_text(), re.S):
            names = re.findall(r"(\w+): (&?(?:'\w+ )?(?:mut )?[\w\[\]]+)", signature)
            names = sorted({f"{n}: {t}" for n, t in names if n != "f"})
            for i, one in enumerate(names):
                for other in names[i + 1 :]:
                    seen[one, other] += 1
    return {pair: n for pair, n in seen.items() if n >= 4}


def main():
    words = sys.argv[1:]
    listing = "--list" in words
    chosen = crates([w for w in words if not w.startswith("--")])
    totals = collections.Counter()
    for crate in chosen:
        print(f"{crate.name}")
        for label, pattern in PATTERNS.items():
            places = []
            for path in sources(crate):
                for number, line in enumerate(path.read_text().splitlines(), 1):
                    code = line.split("//")[0]
                    if "ghost" not in code and not re.match(r"\s*(requires|ensures)", code) and re.search(pattern, code):
                        places.append((path, number, line.strip()))
            if places:
                print(f"  {len(places):3}  {label}")
                totals[label] += len(places)
            if listing:
                for path, number, line in places:
                    print(f"         {path}:{number}: {line}")
        for clause, n in sorted(clauses(crate).items(), key=lambda x: -x[1]):
            print(f"  {n:3}  5 clause: {clause[:150]}")
            totals["5 clauses that stand three times or more"] += 1
        for pair, n in sorted(parameters(crate).items(), key=lambda x: -x[1]):
            print(f"  {n:3}  5 parameters: {pair[0]}, {pair[1]}")
            totals["5 pairs of parameters in four signatures or more"] += 1
        answers = [p for p in (crate / "proofs").rglob("Answers.antt")]
        if answers:
            lines = sum(len(p.read_text().splitlines()) for p in answers)
            print(f"  {len(answers):3}  8 files of answers, {lines} lines")
            totals["8 files of answers"] += len(answers)
            totals["8 lines of answers"] += lines
    print("all")
    for label in sorted(totals):
        print(f"  {totals[label]:4}  {label}")


main()
