#!/usr/bin/env python3
"""Times counter mode and the MAC over 1,024 octets, beside OpenSSL with and without AES instructions.

    (cd crates/bench && rt run)     # proves and builds crates/bench/out/bench
    tools/bench-aes.py [--count N]

Needs python3 (its standard library alone) and the openssl command: apt-get install openssl
Both are timed by the processor time of their own process, so other work on the machine
matters little. Each call here expands its key anew, which OpenSSL's figures leave out.
Prints nanoseconds and, by the rate that /proc/cpuinfo tells, cycles for each octet.
"""
import argparse
import os
import re
import resource
import subprocess
import sys
from pathlib import Path

SIZE = 1024
PROGRAM = Path(__file__).resolve().parent.parent / "crates" / "bench" / "out" / "bench"
NO_AES = "~0x200000200000000"  # OPENSSL_ia32cap without AES instructions and PCLMULQDQ


def spent(mode, count):
    """The processor time of this repository's code for so many calls."""
    before = resource.getrusage(resource.RUSAGE_CHILDREN).ru_utime
    subprocess.run([PROGRAM, mode, str(count)], stdout=subprocess.DEVNULL, check=True)
    return resource.getrusage(resource.RUSAGE_CHILDREN).ru_utime - before


def here(mode, count):
    """Nanoseconds an octet of this repository's code, the best of five runs."""
    return min(spent(mode, count) for _ in range(5)) * 1e9 / (count * SIZE)


def openssl(cipher, capabilities=None):
    """Nanoseconds an octet by `openssl speed`, whose last line has thousands of octets a second."""
    settings = dict(os.environ)
    if capabilities:
        settings["OPENSSL_ia32cap"] = capabilities
    words = ["openssl", "speed", "-seconds", "2", "-bytes", str(SIZE), "-evp", cipher]
    ran = subprocess.run(words, text=True, env=settings, stdout=subprocess.PIPE, stderr=subprocess.DEVNULL, check=True)
    rate = re.search(r"([0-9.]+)k\s*$", ran.stdout.strip())
    return 1e9 / (float(rate.group(1)) * 1000)


def megahertz():
    found = re.search(r"cpu MHz\s*:\s*([0-9.]+)", Path("/proc/cpuinfo").read_text())
    return float(found.group(1)) if found else None


def main():
    words = argparse.ArgumentParser(description="Time AES over 1,024 octets.")
    words.add_argument("--count", type=int, default=50000)
    words = words.parse_args()
    if not PROGRAM.exists():
        sys.exit(f"{PROGRAM} is not there: run `rt run` in crates/bench first")
    rate = megahertz()
    for title, mode, cipher in [("counter mode", "ctr", "aes-128-ctr"), ("MAC (CBC)", "mac", "aes-128-cbc")]:
        figures = [
            ("this repository", here(mode, words.count)),
            ("OpenSSL, no AES instructions", openssl(cipher, NO_AES)),
            ("OpenSSL, AES instructions", openssl(cipher)),
        ]
        for name, nanoseconds in figures:
            cycles = f", {nanoseconds * rate / 1000:7.2f} cycles" if rate else ""
            print(f"{title:14} {name:30} {nanoseconds:8.3f} ns{cycles} an octet")


if __name__ == "__main__":
    main()
