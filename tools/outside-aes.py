#!/usr/bin/env python3
"""Holds this repository's AES to OpenSSL's, octet by octet, on random input.

    (cd crates/vectors && rt run < /dev/null)   # proves and builds crates/vectors/out/vectors
    tools/outside-aes.py [--cases N] [--seed S]

Needs python3 (its standard library alone) and the openssl command: apt-get install openssl

N cases (2,000 by default) of counter mode, N of the MAC, and a tenth of N each of
ECB and CBC go through the program vectors in one run, and through OpenSSL a process
each. Lengths are 0 to 1,100 octets; half of the counters begin at most eight blocks
before they wrap at 32, 64 or 128 bits. Prints counts; the status is 1 at any difference.
"""
import argparse
import random
import subprocess
import sys
from pathlib import Path

LONGEST = 1100
PROGRAM = Path(__file__).resolve().parent.parent / "crates" / "vectors" / "out" / "vectors"


def openssl(mode, key, iv, octets):
    """What `openssl enc` makes of whole octets, with no padding of its own."""
    words = ["openssl", "enc", "-aes-128-" + mode, "-e", "-nopad", "-K", key.hex()]
    if iv is not None:
        words += ["-iv", iv.hex()]
    return subprocess.run(words, input=octets, stdout=subprocess.PIPE, check=True).stdout


def hexed(octets):
    return octets.hex() or "-"


def counter(chance):
    """A counter, and in half of the cases one a few blocks before it wraps at 32, 64 or 128 bits."""
    value = chance.getrandbits(128)
    width = chance.choice([None, None, None, 32, 64, 128])
    if width:
        value = value >> width << width | (1 << width) - 1 - chance.randrange(8)
    return width, value.to_bytes(16, "big")


def mac(key, octets):
    """ISO/IEC 9797-1 algorithm 1, padding method 2, cut to four octets, by OpenSSL's CBC."""
    padded = octets + b"\x80"
    padded += bytes(-len(padded) % 16)
    return openssl("cbc", key, bytes(16), padded)[-16:][:4]


def cases(chance, count):
    """Each case: what it is called, the line for the program, and OpenSSL's answer, not yet computed."""
    for _ in range(count):
        key, octets = chance.randbytes(16), chance.randbytes(chance.randint(0, LONGEST))
        width, iv = counter(chance)
        name = f"ctr, wrap at {width} bits" if width else "ctr"
        yield name, f"ctr {key.hex()} {iv.hex()} {hexed(octets)}", (openssl, "ctr", key, iv, octets)
    for _ in range(count):
        key, octets = chance.randbytes(16), chance.randbytes(chance.randint(0, LONGEST))
        cut = chance.randint(0, len(octets))
        line = f"mac {key.hex()} {hexed(octets[:cut])} {hexed(octets[cut:])}"
        yield "mac", line, (mac, key, octets)
    for _ in range(count // 10):
        key, block = chance.randbytes(16), chance.randbytes(16)
        yield "ecb", f"ecb {key.hex()} {block.hex()}", (openssl, "ecb", key, None, block)
    for _ in range(count // 10):
        key, iv = chance.randbytes(16), chance.randbytes(16)
        octets = chance.randbytes(16 * chance.randint(0, LONGEST // 16))
        yield "cbc", f"cbc {key.hex()} {iv.hex()} {hexed(octets)}", (openssl, "cbc", key, iv, octets)


def main():
    words = argparse.ArgumentParser(description="Hold this repository's AES to OpenSSL's.")
    words.add_argument("--cases", type=int, default=2000)
    words.add_argument("--seed", type=int, default=None)
    words = words.parse_args()
    if not PROGRAM.exists():
        sys.exit(f"{PROGRAM} is not there: run `rt run < /dev/null` in crates/vectors first")
    seed = random.randrange(1 << 32) if words.seed is None else words.seed
    made = list(cases(random.Random(seed), words.cases))
    lines = "".join(line + "\n" for _, line, _ in made)
    ran = subprocess.run([PROGRAM], input=lines, text=True, stdout=subprocess.PIPE, check=True)
    answers = ran.stdout.splitlines()
    if len(answers) != len(made):
        sys.exit(f"{len(made)} requests, {len(answers)} answers")
    counts, octets, differ = {}, 0, 0
    for (name, line, (call, *arguments)), answer in zip(made, answers):
        outside = call(*arguments)
        counts[name] = counts.get(name, 0) + 1
        octets += len(outside)
        if answer != hexed(outside):
            differ += 1
            print(f"DIFFERS: {line}\n  here:    {answer}\n  OpenSSL: {hexed(outside)}")
    version = subprocess.run(["openssl", "version"], text=True, stdout=subprocess.PIPE).stdout.strip()
    for name in counts:
        print(f"{name}: {counts[name]} cases")
    print(f"seed {seed}, {len(made)} cases, {octets} octets, {differ} differ ({version})")
    return 1 if differ else 0


if __name__ == "__main__":
    sys.exit(main())
