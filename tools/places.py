#!/usr/bin/env python3
"""Lists the places of src/ where the language allows a plainer form, point by point.

    python3 tools/places.py            the number of places of each point
    python3 tools/places.py -v         each place too
    python3 tools/places.py -v 3       those of one point

It reads text and not syntax trees, so a place is where one of the patterns below fits; docs/DESIGN-PASS.md says what each
point asks and why the places that are left stay. Run it at the top of the repository."""
import collections
import glob
import re
import sys

FILES = sorted(glob.glob("crates/*/src/*.rt"))
FUNCTION = re.compile(r"^( *)(?:pub(?:\([a-z]+\))? )?(?:const )?fn (\w+)")
CLAUSE = re.compile(r"^\s*(requires|ensures)\b[^{]*\{ (.*) \}\s*$")
WORD = re.compile(r"[A-Za-z_]\w*|\d[\d_]*(?:u8|u16|u32|usize)?|\S")
KEPT = {"if", "else", "for", "in", "while", "let", "return", "match", "mut", "true", "false", "self", "Some", "None",
        "Ok", "Err", "len", "iter", "enumerate", "loop", "break", "continue", "as", "impl", "fn"}


def lines_of(path):
    return open(path, encoding="utf-8").read().split("\n")


def functions(path):
    """Each function: the line where it begins, its name, its signature, its clauses and its body, as lists of lines."""
    lines = lines_of(path)
    at = 0
    while at < len(lines):
        begin = FUNCTION.match(lines[at])
        if not begin or lines[at].rstrip().endswith(";"):
            at += 1
            continue
        indent, name, first = begin.group(1), begin.group(2), at
        head = []
        while at < len(lines) and not re.match(rf"^{indent}\{{", lines[at]) and not lines[at].rstrip().endswith(("{", ";")):
            head.append(lines[at])
            at += 1
        if at == len(lines) or lines[at].rstrip().endswith(";") and not lines[at].rstrip().endswith("{"):
            continue
        if not re.match(rf"^{indent}\{{", lines[at]):
            head.append(lines[at])
        body = []
        if not lines[at].rstrip().endswith("{}"):
            at += 1
            while at < len(lines) and lines[at] != indent + "}":
                body.append(lines[at])
                at += 1
        yield first, name, [l for l in head if not CLAUSE.match(l)], [CLAUSE.match(l).groups() for l in head if CLAUSE.match(l)], body
        at += 1


def code(path):
    """The lines of a file that are neither comments nor clauses, with their numbers."""
    for number, line in enumerate(lines_of(path)):
        if not re.match(r"^\s*(//|requires|ensures|ghost)", line):
            yield number, line


def matching(pattern):
    return [(path, number, line.strip()) for path in FILES for number, line in code(path) if re.search(pattern, line)]


def own_options():
    """An enum of two variants, one of them with the word of an absent value; a bool beside a value in a struct; a fault in an Option; an index that is the length where there is none; a number for a role, a mark or a letter."""
    yield from matching(r"^\s+(Missing|Nothing|Absent|Found|Failed)\b.*,")
    for path in FILES:
        if "/cases/" in path:
            continue
        for number, line in code(path):
            if re.match(r"^    (pub(\(crate\))? )?\w+: bool,$", line) and re.search(r"^(pub )?struct", "\n".join(lines_of(path)[max(0, number - 12):number]), re.M):
                yield path, number, line.strip()
    yield from matching(r"-> Option<\w*Fault>")
    for path in FILES:
        for first, name, head, clauses, body in functions(path):
            text = "\n".join(body)
            if re.search(r"(^|\n)\s*[\w.()]+\.len\(\)$", text.rstrip()) and re.search(r"\bfor\b", text) or "unwrap_or(" in text and ".len())" in text:
                yield path, first, f"fn {name}: the length where there is none"
            if any(re.search(r"\b(code|letter|other): (u8|u16|usize)\b", line) for line in head) and name not in ("new",):
                yield path, first, f"fn {name}: a number for a role, a mark or a letter"


def twins():
    """Functions of one shape: the same words and signs in signature and body, but for names, types and numbers."""
    shapes = collections.defaultdict(list)
    for path in FILES:
        for first, name, head, clauses, body in functions(path):
            words = WORD.findall(" ".join(l for l in head + body if not l.strip().startswith("//")))
            shape = " ".join("0" if w[0].isdigit() else w if w in KEPT or not (w[0].isalpha() or w[0] == "_") else "x" for w in words)
            shape = re.sub(r"\s*,\s*([)\]}])", r" \1", shape)
            if len(words) >= 24:
                shapes[shape].append((path, first, name))
    for group in shapes.values():
        if len(group) > 1:
            for path, first, name in group:
                yield path, first, f"fn {name}: as " + ", ".join(other for _, _, other in group if other != name or len(set(n for _, _, n in group)) == 1)


def index_loops():
    """A loop over a range of numbers, a loop with a count of its own, a loop over enumerate."""
    yield from matching(r"\bfor \w+ in [^{]*\.\.")
    yield from matching(r"\bfor \(\w+, \w+\) in .*enumerate\(\)")
    for path in FILES:
        for first, name, head, clauses, body in functions(path):
            if any(re.match(r"^\s*('\w+: )?(while|loop)\b", line) for line in body) and any(re.search(r"\+= 1;|-= 1;", line) for line in body):
                yield path, first, f"fn {name}: a loop that counts by hand"


def by_hand():
    """Equality, order, copying, conversion and printing written out."""
    yield from matching(r"\bfn (is_same|same_\w+|is_variable|is_name)\(")
    yield from matching(r"\bfn rank\(")
    yield from matching(r"^\s*[\w.]+\[[\w. +]+\] = ([\w.]+\[[\w. +]+\]|0);")
    yield from matching(r"\bfn (number|code|role_of|mark_of|mark_code|layer|field|word|push_number|push_digits|\w+_field)\(")


def together():
    """A fact of one value that stands in the clauses of three functions and more; three parameters and more that stand together in three functions and more."""
    facts = collections.defaultdict(set)
    groups = collections.defaultdict(set)
    for path in FILES:
        crate = path.split("/")[1]
        for first, name, head, clauses, body in functions(path):
            for kind, fact in clauses:
                if kind == "requires":
                    for part in re.split(r" × ", fact.replace("(", " ").replace(")", " ")):
                        facts[crate, " ".join(part.split())].add((path, first, name))
            parameters = re.findall(r"\b(\w+): ([&\w\[\]; <>']+?)(?=,|\)|$)", " ".join(l.strip() for l in head))
            names = [f"{n}: {t}" for n, t in parameters]
            for i in range(len(names) - 2):
                groups[crate, " · ".join(names[i:i + 3])].add((path, first, name))
    for what in (facts, groups):
        for (crate, text), where in sorted(what.items()):
            if len(where) > 2:
                for path, first, name in sorted(where):
                    yield path, first, f"fn {name}: {text}"
    # a view of a struct's private fields that its clauses write out each time
    for view in ("tabled", "page_of", "left", "in_use", "means", "accepted", "take self.new.len self.new.bytes", "atoms_of"):
        where = [(path, first, name) for path in FILES for first, name, head, clauses, body in functions(path)
                 if any(re.search(rf"(?<![\w.]){re.escape(view)} \(?(self|page|fields|register|question|S\.means self|table|model|take)", fact) or view.startswith("take") and view in fact
                        for kind, fact in clauses)]
        if len(where) > 2:
            for path, first, name in where:
                yield path, first, f"fn {name}: {view}"


def buffers():
    """A buffer with a length beside it; parallel arrays; flat tables with two indices in one number; a sorted list searched by hand."""
    for path in FILES:
        text = "\n".join(line for _, line in code(path))
        for struct in re.finditer(r"struct (\w+)[^{;]*\{(.*?)\n\}", text, re.S):
            fields = struct.group(2)
            number = text[:struct.start()].count("\n")
            at = next(i for i, line in enumerate(lines_of(path)) if re.search(rf"struct {struct.group(1)}\b", line))
            buffer = re.search(r": (&'a mut )?\[", fields)
            if buffer and re.search(r"\b(count|len|width|written): usize", fields):
                yield path, at, f"struct {struct.group(1)}: a buffer with a length beside"
            if len(re.findall(r": \[\[?", fields)) > 1:
                yield path, at, f"struct {struct.group(1)}: parallel arrays"
    yield from matching(r"\[bool; 64\]")
    yield from matching(r"\bfn insert\(")


def switches():
    """A bool or a function's number that says which step to run."""
    yield from matching(r"\b(after|known|room): bool\b")


POINTS = [("1 own Options, flags, numbers", own_options), ("2 twins", twins), ("3 index loops", index_loops),
          ("4 written by hand", by_hand), ("5 what stands together", together), ("6 buffers", buffers), ("7 switches", switches)]


def main(arguments):
    verbose = "-v" in arguments
    wanted = [a for a in arguments if a.isdigit()]
    for title, places in POINTS:
        if wanted and title[0] not in wanted:
            continue
        found = sorted(set(places()))
        print(f"{title}: {len(found)}")
        if verbose:
            for path, number, text in found:
                print(f"    {path.replace('crates/', '').replace('src/', '')}:{number + 1}: {text}")
    lines = sum(len(lines_of(p)) for p in glob.glob("crates/*/proofs/**/*.antt", recursive=True))
    print(f"8 lines of proofs: {lines}")


main(sys.argv[1:])
