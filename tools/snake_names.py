#!/usr/bin/env python3
"""Brings the names of this repository's definitions, lemmas and fields to snake case, and those of its types to camel case.

usage: tools/snake_names.py [--look]      at the top of the repository; files are rewritten in place, with --look none is

A name is respelled where specs/ or proofs/ declare it and wherever it is used: in proof files, in contracts and other ghost
parts of the sources, in must-fail edits, and between backticks in comments and pages. Names that come from other libraries, and
those that the prover gives to goals and hypotheses, stay. Names that would be one name in the same file are told; look at each.
"""

import collections
import os
import re
import sys

NAME = r"[^\W\d][\w'\u2032-]*"
# A name with a plus beside it is one of the prover's.
TOKEN = re.compile(rf"(?<![\w'\u2032◌+-]){NAME}(?![\w'\u2032+-])")
USE = re.compile(r"\buse ([\w.+-]+)\.\{([^}]*)\}")
DECLARED = re.compile(rf"^[ \t]*(?:(?:pub|abbrev|unfoldable|record|data)[ \t]+)*((?:{NAME}[ \t]+)*{NAME})(?=[ \t]*(?:[({{].*)?:)", re.M)
LET = re.compile(rf"\blet[ \t]+({NAME})")
LAMBDA = re.compile(rf"\bλ((?:[ \t]+(?:{NAME}|\([^():]*:[^.]*?\)))+)\.")
BINDER = re.compile(rf"[({{][ \t]*((?:{NAME}[ \t]+)*{NAME})[ \t]*:")
CLAUSE = re.compile(r"^[ \t]*(?:\| )?([^=:\n]*[^=:\n ]) ?(?:=|↦)", re.M)
# Names of the prover's goals, in its own files of answers.
ANSWERS = ("Answers.antt", "Invariants.antt", "Choices.antt")
GOAL = re.compile(r"(returns|loop|invariant|invariant_of|decreases|overflow_\w+)-|.*-(requires|init|preserved|smaller)(-.*)?$")
# A function of the sources has the first name already; the second is a type's.
OTHERWISE = {"blank-leg": "a_blank_leg", "Goes_on": "GoesOn"}


def files(top):
    for folder, below, names in os.walk(os.path.join(top, "crates")):
        below[:] = sorted(d for d in below if d not in ("out", "target"))
        for name in sorted(names):
            if name.endswith((".antt", ".rt", ".edit")):
                yield os.path.join(folder, name)


def pages(top):
    yield os.path.join(top, "README.md")
    for name in sorted(os.listdir(os.path.join(top, "docs"))):
        if name.endswith(".md"):
            yield os.path.join(top, "docs", name)


def is_answers(path):
    return "/proofs/" in path and os.path.basename(path) in ANSWERS


def pieces(path, text):
    """The text in pieces, each with what it is: 'code', or 'words' (comments and strings)."""
    pattern = r'"(?:[^"\\]|\\.)*"'
    if path.endswith(".antt"):
        pattern = r"(?:(?<=\s)|^)--(?=\s|$)[^\n]*"
    elif path.endswith(".rt"):
        pattern = r"//[^\n]*|" + pattern
    at = 0
    for found in re.finditer(pattern, text, re.M):
        yield "code", text[at : found.start()]
        yield "words", found[0]
        at = found.end()
    yield "code", text[at:]


def foreign(text, crates):
    """The names that a file has from other libraries."""
    names = set()
    for found in USE.finditer(text):
        path = found[1].split(".")
        if path[0] != "Rattle" or path[1] not in crates:
            for item in found[2].split(","):
                names.update(word.strip() for word in item.split(" as "))
    return names


def fields(text):
    """The names of fields that a file declares."""
    names, inside = set(), None
    for line in text.split("\n"):
        deep = len(line) - len(line.lstrip())
        if inside is not None and line.strip() and deep <= inside:
            inside = None
        if re.match(r"\s*(pub )?record\b.*\bwhere\s*$", line):
            inside = deep
        elif inside is not None and (found := DECLARED.match(line)):
            names.update(word for word in found[1].split() if word != "pub")
    return names


def bound(text):
    """The names that a file binds for itself: in a let, a lambda, a binder, a clause, or by renaming an import."""
    names = set(LET.findall(text))
    for group in LAMBDA.findall(text):
        names.update(re.findall(NAME, re.sub(r":[^()]*", " ", group)))
    for group in BINDER.findall(text):
        names.update(group.split())
    for head in CLAUSE.findall(text):
        names.update(found[0] for found in list(TOKEN.finditer(head))[1:] if head[: found.start()][-1:] != ".")
    for found in USE.finditer(text):
        names.update(item.split(" as ")[1].strip() for item in found[2].split(",") if " as " in item)
    return names


def is_type(name, texts):
    """Whether a declaration of this name says that it is a type."""
    head = re.compile(rf"^[ \t]*(?:(?:pub|abbrev|unfoldable|record|data)[ \t]+)*{re.escape(name)}(?![\w'-])([^\n]*:[^\n]*)$", re.M)
    return any(re.search(r"(→|:)\s*Type \d+(\s+where)?\s*$", found[1]) for text in texts for found in head.finditer(text))


def respelled(name, typed):
    if name in OTHERWISE:
        return OTHERWISE[name]
    words = name.split("-")
    if name[0].isupper() and typed:
        return "".join(word[:1].upper() + word[1:] for word in words)
    return "_".join([words[0].lower() if name[0].isupper() else words[0], *words[1:]])


class Names:
    """What is declared where, and its new spelling."""

    def __init__(self, texts):
        self.crates = set(os.listdir("crates"))
        self.code = {path: "".join(piece if kind == "code" else " " for kind, piece in pieces(path, text)) for path, text in texts.items()}
        self.public, self.fields = set(), set()
        self.local, self.foreign = collections.defaultdict(set), {}
        for path, text in self.code.items():
            self.foreign[path] = foreign(text, self.crates)
            if path.endswith(".antt"):
                declared = {word for group in DECLARED.findall(text) for word in group.split()}
                if is_answers(path):
                    self.local[path] |= {name for name in declared if not GOAL.match(name)}
                else:
                    self.public |= declared
                    self.fields |= fields(text)
            if not path.endswith(".edit"):
                self.local[path] |= {name for name in bound(text) if not (is_answers(path) and GOAL.match(name))}
        proofs = [text for path, text in self.code.items() if path.endswith(".antt")]
        every = {name for name in self.public.union(*self.local.values()) if "-" in name or name in OTHERWISE}
        self.new = {name: respelled(name, is_type(name, proofs)) for name in every}

    def mine(self, path, name, after_dot):
        """Whether this name, in this file, is one of the repository's own."""
        if name not in self.new or name in self.foreign[path]:
            return False
        if after_dot and is_answers(path):
            return name in self.fields
        return name in self.public or name in self.local[path]

    def turned(self, path, text):
        def turn(found):
            after_dot = text[: found.start()].endswith(".")
            return self.new[found[0]] if self.mine(path, found[0], after_dot) else found[0]

        return TOKEN.sub(turn, text)

    def together(self, path):
        """The names of a file that would be one name."""
        tokens = {found[0] for found in TOKEN.finditer(self.code[path])}
        spelled = lambda name: self.new[name] if self.mine(path, name, False) else name
        for name in sorted(tokens):
            if spelled(name) != name:
                yield from ((name, other) for other in sorted(tokens) if other != name and spelled(other) == spelled(name))


def main():
    texts = {}
    for path in files("."):
        with open(path, encoding="utf-8") as file:
            texts[path] = file.read()
    names = Names(texts)
    for path in texts:
        for name, other in names.together(path):
            print(f"{path}: {name} and {other} are one name")
    if "--look" in sys.argv:
        return
    for path, text in texts.items():
        turned = [names.turned(path, piece) if kind == "code" else re.sub(r"`[^`\n]*`", lambda found: names.turned(path, found[0]), piece) for kind, piece in pieces(path, text)]
        with open(path, "w", encoding="utf-8") as file:
            file.write("".join(turned))
    for path in pages("."):
        with open(path, encoding="utf-8") as file:
            text = file.read()
        turn = lambda found: names.new[found[0]] if found[0] in names.public and found[0] in names.new else found[0]
        with open(path, "w", encoding="utf-8") as file:
            file.write(re.sub(r"`[^`\n]*`", lambda found: TOKEN.sub(turn, found[0]), text))


if __name__ == "__main__":
    main()
