#!/usr/bin/env python3
"""Writes the texts that the program `cases` reads from its stdin, and prints what it must print of them.

The texts are made from a fixed seed, and what is expected of each comes from compare/register.py."""
import os
import random
import sys

sys.path.insert(0, os.path.dirname(os.path.abspath(__file__)))
from check import line
from register import run

SEED, TEXTS = 1117, 200


def made():
    source = random.Random(SEED)
    for _ in range(TEXTS):
        text = b"\n".join(line(source) for _ in range(source.randrange(1, 40)))
        yield text + source.choice([b"", b"\n"])
    yield b"\n".join(b"K %d %d" % (k, a) for k in range(20) for a in range(40))
    yield b"\n".join(b"S k0 %s%d k%d" % (source.choice([b"f", b"b"]), source.randrange(32), source.randrange(64)) for _ in range(200))


if __name__ == "__main__":
    with open(sys.argv[1], "wb") as stdin:
        for text in made():
            stdin.write(text + b"\x1e")
    for text in made():
        printed, full = run(text)
        sys.stdout.write("# a text: " + ("refusal 10" if full else f"{len(printed)} bytes") + "\n" + printed)
