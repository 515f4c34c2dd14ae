#!/usr/bin/env python3
"""Plants bugs one at a time in a copy of the repository, and lists those that the prover does not refuse.

    tools/plant.py [--logs DIR] CRATE [FOLDER [LABEL ..]]

Each bug is a file LABEL.edit in the form of crates/CRATE/must-fail (the folder that is taken where none is named): a line
'file:', then one or more pairs of lines 'old:' and 'new:'. Only the labels named are tried, all of them where none is.
The copy is checked by `rt check`, which goes over what changed, so a bug costs seconds; `rt ci` tries the must-fail
edits again. For each bug one line says whether it is refused, after how many seconds, in which functions, and where
first. An edit that the compiler refuses never reaches the prover: it shows nothing of a contract, and counts as bad. With
--logs, DIR gets all that was said of each bug.
Needs only the toolchain and python3. Exit status 1 where a bug survives or cannot be planted.
"""
import argparse, os, re, shutil, subprocess, sys, tempfile, time
sys.dont_write_bytecode = True
from edits import Planted, labels_in, read, write

def check(root, crate):
    began = time.monotonic()
    folder = os.path.join(root, "crates", crate)
    run = subprocess.run(["rt", "check"], cwd=folder, capture_output=True, text=True)
    return run.returncode, (run.stdout + run.stderr).replace(root + "/", ""), round(time.monotonic() - began)

# Where a check first fails: an error of the compiler or in a written proof, or a need that is left open.
def first_trouble(text):
    for pattern in (r": error", r"it is not proved", r"no proof|not proved"):
        for line in text.splitlines():
            if re.search(pattern, line):
                return line[:240]
    return "no trouble is named"

# The functions that fail by themselves, and not for one that they call.
def failing(text):
    names = re.findall(r"^fn (\S+): (?:no proof|not proved)(?!: it calls)", text, re.M)
    return ", ".join(name.split("::", 1)[-1] for name in names) or "no function"

# Tries one edit; answers whether the prover refuses it, and what to say of it.
def trial(copy, crate, edit, log):
    with Planted(os.path.join(copy, "crates", crate), read(edit)) as planted:
        if planted.trouble:
            return False, f"CANNOT BE PLANTED: {planted.trouble}"
        status, text, took = check(copy, crate)
    if log:
        write(log, text)
    if status == 0:
        return False, f"SURVIVES ({took} s)"
    if status != 1 or "logic=not-proved" not in text:
        return False, f"DID NOT REACH THE PROVER ({took} s): {first_trouble(text)}"
    return True, f"refused ({took} s) in {failing(text)}: {first_trouble(text)}"

def main():
    words = argparse.ArgumentParser(usage="tools/plant.py [--logs DIR] CRATE [FOLDER [LABEL ..]]")
    words.add_argument("--logs")
    words.add_argument("crate")
    words.add_argument("folder", nargs="?")
    words.add_argument("labels", nargs="*")
    given = words.parse_args()
    top = subprocess.run(["git", "rev-parse", "--show-toplevel"], capture_output=True, text=True, check=True).stdout.strip()
    folder = given.folder or os.path.join(top, "crates", given.crate, "must-fail")
    labels = given.labels or labels_in(folder)
    if given.logs:
        os.makedirs(given.logs, exist_ok=True)
    bad = 0
    with tempfile.TemporaryDirectory(prefix="plant-") as root:
        copy = os.path.join(root, "copy")
        shutil.copytree(top, copy, ignore=shutil.ignore_patterns(".git"))
        status, text, _ = check(copy, given.crate)
        if status != 0:
            sys.exit("the crate is not proved as it stands: " + first_trouble(text))
        for label in labels:
            log = os.path.join(given.logs, label + ".log") if given.logs else ""
            refused, said = trial(copy, given.crate, os.path.join(folder, label + ".edit"), log)
            bad += not refused
            print(f"{label}: {said}", flush=True)
    print(f"{len(labels)} planted, {bad} not refused")
    sys.exit(1 if bad else 0)

main()
