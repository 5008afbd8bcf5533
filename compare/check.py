#!/usr/bin/env python3
"""Runs the program `register` on texts and compares what it prints with compare/register.py.

Usage: compare/check.py PROGRAM. The texts are made from a fixed seed, so a run can be repeated."""
import os
import random
import subprocess
import sys

sys.path.insert(0, os.path.dirname(os.path.abspath(__file__)))
from register import run

SEED, TEXTS = 20261117, 300
FIELDS = [b"K", b"L", b"R", b"N", b"S", b"H", b"Q", b"", b"0", b"1", b"01", b"9", b"31", b"32", b"63", b"64", b"1023", b"1024",
          b"9999", b"10000", b"k1", b"k2", b"k63", b"k64", b"f1", b"f2", b"f31", b"f32", b"b1", b"b2", b"b32", b"k", b"v0", b"-1", b"\xff"]
FORMS = {b"K": "nn", b"L": "nnn", b"R": "mm", b"N": "mm", b"S": "mrk", b"H": "rr"}


def field(random, sort):
    """A field that is mostly well formed and mostly in range."""
    number = b"%d" % random.choice([0, 0, 1, 1, 2, 3, 31, 32, 63, 64, 1023, 1024])
    letter = {"n": b"", "m": random.choice([b"k", b"f", b"b"]), "r": random.choice([b"f", b"b"]), "k": b"k"}[sort]
    return letter + number


def line(random):
    if random.random() < 0.3:
        return b" ".join(random.choice(FIELDS) for _ in range(random.randrange(1, 6)))
    letter = random.choice(list(FORMS))
    return b" ".join([letter] + [field(random, sort) for sort in FORMS[letter]])


def check(program, text, name):
    done = subprocess.run([program], input=text, capture_output=True, timeout=60)
    printed, full = run(text[:32768])
    if done.stdout != printed.encode() or done.returncode != (1 if full else 0):
        sys.exit(f"{name}: the program printed {done.stdout[:200]!r} with status {done.returncode}, expected {printed[:200]!r}")
    if bool(done.stderr) != (full or len(text) >= 32768):
        sys.exit(f"{name}: standard error has {done.stderr!r}")


def check_example(program):
    folder = os.path.join(os.path.dirname(os.path.abspath(__file__)), "..", "examples")
    text = open(os.path.join(folder, "league.txt"), "rb").read()
    expected = open(os.path.join(folder, "league.out"), "rb").read()
    if subprocess.run([program], input=text, capture_output=True).stdout != expected:
        sys.exit("the example prints something else than examples/league.out")


def main():
    program, source = os.path.abspath(sys.argv[1]), random.Random(SEED)
    check(program, b"", "no input")
    check(program, b"K 1 0", "no last byte 10")
    check(program, b"K" * 40000, "40000 bytes in one line")
    check(program, b"K 1 0\n" * 5000, "30000 bytes of lines")
    check(program, b"K 1 0\n" * 5461 + b"K ", "32768 bytes")
    check(program, b"\n" * 3000, "output longer than the page")
    check_example(program)
    for number in range(TEXTS):
        text = b"\n".join(line(source) for _ in range(source.randrange(0, 60)))
        check(program, text + source.choice([b"", b"\n"]), f"text {number}")
    many = [b"K %d %d" % (k, a) for k in range(20) for a in range(40)]
    check(program, b"\n".join(many), "more facts than records")
    pairs = [b"S k0 %s%d k%d" % (source.choice([b"f", b"b"]), source.randrange(32), source.randrange(64)) for _ in range(200)]
    check(program, b"\n".join(pairs), "more pairs than can be in use")
    print(f"{TEXTS + 8} texts compared")


if __name__ == "__main__":
    main()
