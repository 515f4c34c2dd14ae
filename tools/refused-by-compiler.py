#!/usr/bin/env python3
"""Sees that the compiler refuses every edit of the folders crates/CRATE/compile-refused, each with the error that it names.

    tools/refused-by-compiler.py

An edit is a file LABEL.edit in the form of the must-fail folders, with a line 'error: NAME' more. It is applied to a copy of
the repository, outside of it, in which an empty program stands above the crate; `rt try` reads that program there, with every
crate that it sees as source: no contract is proved, so an edit costs some seconds and nothing has to be built before. The
crate as it stands has to pass first. One line for each edit; exit status 1 where one is not refused, or for another reason.
Needs only the toolchain and python3.
"""
import os, re, shutil, subprocess, sys, tempfile, time
sys.dont_write_bytecode = True
from edits import Planted, labels_in, read, word_of, write

# The crates that each crate sees, by crates.txt.
def crates_of(top):
    sees = {}
    for line in read(os.path.join(top, "crates.txt")).splitlines():
        name, colon, deps = line.split("#", 1)[0].partition(":")
        if colon:
            sees[name.strip()] = deps.split()
    return sees

# Puts an empty program above a crate of the copy, and answers its folder.
def program_above(top, copy, sees, crate):
    name = crate + "_above"
    folder = os.path.join(copy, "crates", name)
    os.makedirs(os.path.join(folder, "src"))
    write(os.path.join(folder, "src", "main.rt"), "#![tactic(auto)]\n\nfn main() {}\n")
    above = f"{name}: {' '.join([crate] + sees[crate])}\n"
    write(os.path.join(copy, "crates.txt"), read(os.path.join(top, "crates.txt")) + above)
    return folder

# What the compiler says of a program: its exit status, its errors as (name, place), and all of it.
def compiled(folder, copy):
    run = subprocess.run(["rt", "try"], cwd=folder, capture_output=True, text=True)
    said = (run.stdout + run.stderr).replace(copy + "/", "")
    return run.returncode, [(name, place) for place, name in re.findall(r"^(\S+): error\[([^\]]*)\]", said, re.M)], said

# Tries one edit; answers whether it is refused as it says, and what to say of it.
def trial(folder, copy, crate, edit):
    text = read(edit)
    wanted = word_of(text, "error")
    if not wanted:
        return False, "BAD EDIT: it has no line 'error: NAME'"
    with Planted(os.path.join(copy, "crates", crate), text) as planted:
        if planted.trouble:
            return False, f"BAD EDIT: {planted.trouble}"
        began = time.monotonic()
        status, errors, said = compiled(folder, copy)
        took = time.monotonic() - began
    if status == 0:
        return False, f"NOT REFUSED: the compiler takes it; it should say {wanted}"
    names = {name for name, _ in errors}
    if status != 1 or names != {wanted}:
        return False, f"ANOTHER ERROR than {wanted}: {', '.join(sorted(names)) or 'none is named'} (exit {status}): {said.strip()[:300]}"
    return True, f"refused, as it must be: {wanted} at {errors[0][1]} ({took:.1f} s)"

def main():
    top = os.path.dirname(os.path.dirname(os.path.abspath(__file__)))
    sees = crates_of(top)
    good = bad = 0
    with tempfile.TemporaryDirectory(prefix="refused-") as root:
        copy = os.path.join(root, "copy")
        shutil.copytree(top, copy, ignore=shutil.ignore_patterns(".git", "out"))
        for crate in sees:
            folder = os.path.join(top, "crates", crate, "compile-refused")
            if not os.path.isdir(folder):
                continue
            program = program_above(top, copy, sees, crate)
            status, _, said = compiled(program, copy)
            if status != 0:
                bad += 1
                print(f"compile-refused {crate}: the compiler does not take the crate as it stands (exit {status}): {said.strip()[:300]}", flush=True)
                continue
            for label in labels_in(folder):
                refused, what = trial(program, copy, crate, os.path.join(folder, label + ".edit"))
                good, bad = good + refused, bad + (not refused)
                print(f"compile-refused {crate}/{label}: {what}", flush=True)
    print(f"refused by the compiler: {good} edits, and {bad} not as they should be")
    sys.exit(0 if good and not bad else 1)

main()
