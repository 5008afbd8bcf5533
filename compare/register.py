#!/usr/bin/env python3
"""An independent reading of the line format, to compare the program `register` with.

It shares no code with the library and is not part of any proof: it reads a text from standard input and prints what
the rules of docs/TEXT.md say of each line. Facts and rules only."""
import re
import sys

NUMBER = rb"(?:0|[1-9][0-9]{0,3})"
SORTS = {"n": NUMBER, "m": rb"[kfb]" + NUMBER, "r": rb"[fb]" + NUMBER, "k": rb"k" + NUMBER}
FORMS = {b"K": "nn", b"L": "nnn", b"R": "mm", b"N": "mm", b"S": "mrk", b"H": "rr"}


def first_bad_field(fields):
    """The number of the first misformed, missing or extra field, or None."""
    form = FORMS.get(fields[0])
    if form is None:
        return 1
    for place, sort in enumerate(form, start=1):
        if place >= len(fields) or not re.fullmatch(SORTS[sort], fields[place]):
            return place + 1
    return len(form) + 2 if len(fields) > len(form) + 1 else None


def spellings(letter, arguments):
    """All spellings of one rule, as a set that tells the rule."""
    turn = {ord("f"): b"b", ord("b"): b"f"}
    if letter == b"N":
        return frozenset([arguments, arguments[::-1]])
    if letter == b"H":
        return frozenset([arguments, tuple(turn[a[0]] + a[1:] for a in arguments)])
    return frozenset([arguments])


class Register:
    def __init__(self, names=1024, limit=512):
        self.names, self.limit = names, limit
        self.facts, self.rules, self.pairs = set(), set(), set()

    def enter_fact(self, letter, numbers):
        bounds = [(64, 1) if letter == b"K" else (32, 2)] + [(self.names, 3)] * (len(numbers) - 1)
        for field, (number, (bound, refusal)) in enumerate(zip(numbers, bounds), start=2):
            if number >= bound:
                return (refusal, "store", field)
        fact = (letter, *numbers)
        if fact in self.facts:
            return "known"
        if len(self.facts) >= self.limit:
            return (4, "store", 1)
        self.facts.add(fact)
        return "ok"

    def enter_rule(self, letter, arguments):
        for field, argument in enumerate(arguments, start=2):
            kind = argument[:1] == b"k"
            if int(argument[1:]) >= (64 if kind else 32):
                return (1 if kind else 2, "book", field)
        rule = (letter, spellings(letter, arguments))
        if rule in self.rules:
            return "known"
        if letter == b"S":
            pair = arguments[1:]
            if pair not in self.pairs and len(self.pairs) == 32:
                return (5, "book", 1)
            self.pairs.add(pair)
        self.rules.add(rule)
        return "ok"

    def line(self, number, line):
        fields = line.split(b" ")
        bad = first_bad_field(fields)
        if bad is not None:
            reply = (12, "text", bad)
        elif fields[0] in (b"K", b"L"):
            reply = self.enter_fact(fields[0], [int(f) for f in fields[1:]])
        else:
            reply = self.enter_rule(fields[0], tuple(fields[1:]))
        if isinstance(reply, tuple):
            refusal, layer, field = reply
            reply = f"no {refusal} {layer} {number} {field}"
        return reply + "\n"


def run(text, limit=512, page=32768):
    """The output lines that fit whole on the page, from the first, and whether all did."""
    lines = text.split(b"\n")
    if lines[-1] == b"":
        lines.pop()
    register, printed, full = Register(limit=limit), "", False
    for number, line in enumerate(lines, start=1):
        output = register.line(number, line)
        full = full or len(printed) + len(output) > page
        if not full:
            printed += output
    return printed, full


if __name__ == "__main__":
    printed, full = run(sys.stdin.buffer.read(32768))
    sys.stdout.write(printed)
    sys.exit(1 if full else 0)
