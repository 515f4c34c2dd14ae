#!/usr/bin/env python3
"""Makes crates/checks/data/messages.txt: random components, and the MAPsec messages that OpenSSL's AES makes of them.

    tools/outside-messages.py [--cases N] [--seed S] > crates/checks/data/messages.txt

Needs python3 (its standard library alone) and the openssl command. Nothing of this repository's AES is used: the layout is
written out here, the payload in mode 2 is `openssl enc -aes-128-ctr`, and the tag is the CBC-MAC by `openssl enc -aes-128-cbc`.
A line is READING SPI KIND CODE MEK MIK PROP CLEARTEXT MESSAGE. The modes are those of the settings of the program `checks`:
code 37 has level 1, code 56 level 3. The stored file is the output with N 120 and S 1.
"""
import argparse
import random
import subprocess

NE_ID = bytes.fromhex("123456789012")
# The mode of an identifier.
MODES = {(1, 37): 1, (2, 37): 0, (1, 56): 1, (2, 56): 2, (3, 56): 0}


def openssl(mode, key, iv, octets):
    """What `openssl enc` makes of octets, with no padding of its own."""
    words = ["openssl", "enc", "-aes-128-" + mode, "-e", "-nopad", "-K", key.hex(), "-iv", iv.hex()]
    return subprocess.run(words, input=octets, stdout=subprocess.PIPE, check=True).stdout


def mac(key, octets):
    """ISO/IEC 9797-1 algorithm 1, padding method 2, cut to four octets."""
    padded = octets + b"\x80"
    padded += bytes(-len(padded) % 16)
    return openssl("cbc", key, bytes(16), padded)[-16:][:4]


def message(reading, spi, identifier, mek, mik, prop, cleartext):
    header = spi.to_bytes(4, "big") + bytes(identifier)
    mode = MODES[identifier]
    if mode == 0:
        return header + cleartext
    fields = (reading % 2**32).to_bytes(4, "big") + NE_ID + prop.to_bytes(4, "big")
    payload = openssl("ctr", mek, fields + bytes(2), cleartext) if mode == 2 and cleartext else cleartext
    covered = header + fields + payload
    return covered + mac(mik, covered)


def main():
    words = argparse.ArgumentParser(description=__doc__.split("\n")[0])
    words.add_argument("--cases", type=int, default=120)
    words.add_argument("--seed", type=int, default=1)
    given = words.parse_args()
    chance = random.Random(given.seed)
    print("# made by tools/outside-messages.py: READING SPI KIND CODE MEK MIK PROP CLEARTEXT MESSAGE")
    identifiers = [(2, 56)] * 4 + [(1, 56), (1, 37)] * 2 + [(2, 37), (3, 56)]
    lengths = [0, 1, 15, 16, 17, 31, 32, 1023, 1024]
    for _ in range(given.cases):
        # readings of all sizes, one in four next to a roll-over of the stamp
        reading = chance.randrange(1, 2 ** chance.randint(1, 47))
        if chance.randrange(4) == 0:
            reading = (reading >> 32 << 32) + 2**32 + chance.randint(-3, 3)
        spi, identifier, prop = chance.getrandbits(32), chance.choice(identifiers), chance.choice([0, 0, 1, 7])
        if MODES[identifier] == 0:
            prop = 0
        mek, mik = chance.randbytes(16), chance.randbytes(16)
        cleartext = chance.randbytes(chance.choice(lengths + [chance.randint(0, 300)] * 12))
        made = message(reading, spi, identifier, mek, mik, prop, cleartext)
        print(reading, spi, *identifier, mek.hex(), mik.hex(), prop, cleartext.hex() or "-", made.hex())


main()
