#!/usr/bin/env python3
"""Brings the repository's own words to one spelling.

Words, fields and lemmas are in snake case, types and facts in camel case; a dash is left where it joins the names of
two definitions. A lemma that would have the name of something else gets `_lem`. Run at the top: it reads definitions,
lemmas, proof files and the clauses of sources; names of functions, texts in quotation marks and the inputs and
outputs of programs stay as they are. A second run changes nothing."""
import os
import re

CAMEL = re.compile(r"(?<![A-Za-z0-9_'\\])([a-z][a-z0-9_]*(?:(?<=[a-z0-9])[A-Z][A-Za-z0-9]*)+)(?![A-Za-z0-9_])")
TEXT = re.compile(r'b?"(?:[^"\\]|\\.)*"')
TOKEN = re.compile(r"(?<![A-Za-z0-9_'-])[A-Za-z][A-Za-z0-9_]*(?:-[A-Za-z0-9_]+)*'?(?![A-Za-z0-9_'-])")
DECLARED = re.compile(r"^(\s*)((?:abbrev |unfoldable |pub |record |data )*)([^\s:(){}=;,]+)(?: \([^)]*\)| \{[^}]*\})* :(?: |$)")
FUNCTION = re.compile(r"\bfn ([a-z_0-9]+)")
MADE = re.compile(r"^use \S+\.(?:Goals|Given)\.\{([^}]*)\}")
# names of definitions of the library that begin or end a lemma's name
DEFINED = {"length", "take", "drop", "set", "replicate", "cond", "not", "and", "or", "T", "nth"}
# lemmas that would have the name of the word that they are about, while that is in camel case
BESIDE = [("crates/search/proofs/", "place_at", "placeAt"), ("crates/model/proofs/", "some_below", "someBelow"),
          ("crates/rules/proofs/", "told_below", "toldBelow"), ("crates/rules/proofs/", "mark_code", "markCode"),
          ("crates/store/proofs/", "has_room", "hasRoom")]
# words in proofs that were spelled as types
WORDS = {
    "crates/universal/proofs/PathMarks.antt": {"At": "element_at"},
    "crates/universal/proofs/Images.antt": {"At": "element_at", "W": "extension"},
    "crates/universal/proofs/Hidden.antt": {"W": "extension"},
    "crates/model/proofs/Completion.antt": {"At": "element_at", "Witness": "witness_element"},
    "crates/model/proofs/CanonicalLaws.antt": {"At": "element_at"},
}


def files():
    for folder, _, names in sorted(os.walk("crates")):
        for name in sorted(names):
            if name.endswith((".antt", ".rt")) and "out" not in folder.split(os.sep):
                yield os.path.join(folder, name)


def read(path):
    with open(path, encoding="utf-8") as source:
        return source.read()


def is_answer(path):
    return path.endswith(("/Answers.antt", "/Invariants.antt", "/Choices.antt"))


def snake(match):
    return re.sub(r"[A-Z]+", lambda m: "_" + m.group(0).lower(), match.group(1))


def rename(text, old, new):
    return re.sub(r"(?<![A-Za-z0-9_'-])" + old + r"(?![A-Za-z0-9_'-])", new, text)


def outside_texts(text, turn):
    """Turns what stands outside quotation marks."""
    parts, last = [], 0
    for match in TEXT.finditer(text):
        parts += [turn(text[last:match.start()]), match.group(0)]
        last = match.end()
    return "".join(parts + [turn(text[last:])])


def worded(path, text, beside):
    """The text with its words in snake case."""
    if path.endswith(".antt"):
        for folder, word in beside:
            if path.startswith(folder):
                text = "\n".join(
                    line if "/" + word in line or "." + word + "." in line else rename(line, word, word + "_lem")
                    for line in text.split("\n"))
        for old, new in WORDS.get(path, {}).items():
            text = rename(text, old, new)
        return CAMEL.sub(snake, text)
    return outside_texts(text, lambda part: CAMEL.sub(snake, part))


class Names:
    """The repository's own names: definitions, lemmas, and the fields of its records."""

    def __init__(self, texts):
        self.definitions, self.lemmas, self.fields, self.used = set(DEFINED), set(), set(), set()
        for path, text in texts.items():
            if path.endswith(".antt"):
                self.read(text, is_answer(path))
            else:
                self.used.update(FUNCTION.findall(text))

    def read(self, text, answer):
        inside = None
        for line in text.split("\n"):
            indent = len(line) - len(line.lstrip())
            if line.strip() and inside is not None and indent <= inside:
                inside = None
            self.used.update(m.group(0) for m in TOKEN.finditer(line) if line[m.start() - 1:m.start()] != ".")
            found = DECLARED.match(line)
            if not found or (answer and line[found.end():].startswith("goal.")):
                continue
            marks, name = found.group(2), found.group(3)
            if "record " in marks or "data " in marks:
                inside = indent
                self.definitions.add(name)
            elif inside is not None:
                self.fields.add(name)
            elif "abbrev" in marks or "unfoldable" in marks:
                self.definitions.add(name)
            else:
                self.lemmas.add(name)

    def spelled(self, name):
        """A name with a dash left only between the names of two definitions."""
        parts = name.split("-")
        result = parts[0]
        for left, right in zip(parts, parts[1:]):
            joins = name in self.lemmas and left in self.definitions and right in self.definitions
            result += ("-" if joins else "_") + right
        # a dash between words that `_` has made longer is looked at again
        sides = result.split("-")
        return result if all(side in self.definitions for side in sides) else result.replace("-", "_")

    def table(self):
        turned = {}
        for name in sorted(self.definitions | self.lemmas | self.fields):
            if "-" in name:
                new = self.spelled(name)
                taken = new != name and (new in self.used or new in turned.values())
                turned[name] = new + "_lem" if taken and name not in self.fields else new
        return turned


def undashed(path, text, turned):
    """The text with its names as the table turns them, outside comments."""
    if not path.endswith(".antt"):
        return "\n".join(
            line if line.lstrip().startswith("//") else TOKEN.sub(lambda m: turned.get(m.group(0), m.group(0)), line)
            for line in text.split("\n"))
    made = set()
    if is_answer(path):
        for line in text.split("\n"):
            found = MADE.match(line)
            made.update(name.strip() for name in found.group(1).split(",")) if found else None
            found = DECLARED.match(line)
            made.update([found.group(3)] if found and line[found.end():].startswith("goal.") else [])

    def turn(match):
        name = match.group(0)
        behind_dot = match.string[match.start() - 1:match.start()] == "."
        if name in made or (behind_dot and is_answer(path)):
            return name
        return turned.get(name, name)

    return "\n".join(
        line if line.lstrip().startswith("--") else TOKEN.sub(turn, line) for line in text.split("\n"))


def main():
    old = {path: read(path) for path in files()}
    beside = [(folder, word) for folder, word, camel in BESIDE if any(camel in text for text in old.values())]
    texts = {path: worded(path, text, beside) for path, text in old.items()}
    turned = Names(texts).table()
    for path, text in texts.items():
        new = undashed(path, text, turned)
        if new != old[path]:
            with open(path, "w", encoding="utf-8") as target:
                target.write(new)


main()
