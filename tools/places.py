#!/usr/bin/env python3
"""Counts the places of src/ that today's Rattle has a better form for, by the points of docs/DESIGN-PASS.md.

usage: tools/places.py [--list] [FOLDER]      the repository, this folder where none is named; --list prints each place

It finds places by their shape, so a reader still has to look at each: see docs/DESIGN-PASS.md.
"""

import collections
import glob
import itertools
import os
import re
import sys

# A value that says that there is none, as its comment tells it.
NONE_WORDS = re.compile(r"//.*(\b(0|m|16|256|the length|a threshold of 0) (where|for any)|0 can say)")
# What is named after a width, or said to be as another is.
WIDTH = re.compile(r"\bfn \w*(_|as_)[iu](8|16)\b")
LIKE = re.compile(r"^\s*// (As \w+|The same)\b")
LOOP = re.compile(r"^\s*(while\b|loop \{)")
COUNTED = re.compile(r"^\s*\w+ [-+]= ")
CAST = re.compile(r"\bas [iu](8|16|32|64|size)\b")
# Equality, order, copying, conversion and printing by their implementations, and loops that compare or copy.
BY_HAND = re.compile(r"impl .*\b(PartialEq|Eq|PartialOrd|Ord|Clone|Copy|Display|Debug)\b.* for|\* (256|65536|16777216)\b|/ (65536|16777216)\b|= b'[a-z]';")
ENUM = re.compile(r"^\s*(pub(\(\w+\))? )?enum (\w+)")
ARRAY = re.compile(r"\[[^\[\]]*; *[A-Z0-9_]+\]")
CHAIN = re.compile(r"^\s*if is_\w+\(.*\) \{$")
HEAD = re.compile(
    r"\bfn (\w+)\s*(?:<[^>]*>)?\s*\(([^)]*)\)([^;{]*?(?:(?:requires|ensures)[^{]*\{.*?\}\s*)*)\{", re.S
)
CLAUSE = re.compile(r"(requires|ensures)\s*\w*\s*\{(.*?)\}\s", re.S)
# Parameters that each function has for a reason of its own, and no fact ties together.
HANDLES = {"rt", "alloc", "out"}


def sources(root):
    return sorted(glob.glob(os.path.join(root, "crates/*/src/**/*.rt"), recursive=True))


def lines(root, pattern):
    for path in sources(root):
        for number, line in enumerate(open(path), 1):
            if pattern.search(line):
                yield f"{os.path.relpath(path, root)}:{number}: {line.strip()}"


def conjuncts(text):
    for fact in text.split("×"):
        fact = re.sub(r"\.(now|old|new)\b", "", " ".join(fact.split()))
        while fact.startswith("(") and fact.endswith(")") and fact.find(")") == len(fact) - 1:
            fact = fact[1:-1]
        yield fact


def repeated(root):
    """Facts in the contracts of three or more functions; parameters that three or more functions share, two by two."""
    facts = collections.defaultdict(set)
    together = collections.defaultdict(set)
    for path in sources(root):
        crate = os.path.relpath(path, root).split(os.sep)[1]
        for name, parameters, contract in HEAD.findall(open(path).read()):
            where = f"{crate}::{name}"
            names = sorted(p.split(":")[0].replace("mut ", "").strip() for p in parameters.split(",") if ":" in p)
            for pair in itertools.combinations([n for n in names if n not in HANDLES], 2):
                together[pair].add(where)
            for _, clause in CLAUSE.findall(contract):
                for fact in conjuncts(clause):
                    facts[fact].add(where)
    for what, found in ((facts, "fact"), (together, "together")):
        for key, where in sorted(what.items(), key=lambda item: -len(item[1])):
            if len(where) >= 3:
                shown = key if isinstance(key, str) else ", ".join(key)
                yield f"{found}: {shown}: {len(where)}: {', '.join(sorted(where))}"


def answers(root):
    """Answers in proofs/, by crate."""
    for path in sorted(glob.glob(os.path.join(root, "crates/*/proofs/**/Answers.antt"), recursive=True)):
        for number, line in enumerate(open(path), 1):
            if re.match(r"pub \S+ : goal\.", line):
                yield f"{os.path.relpath(path, root)}:{number}: {line.strip()}"


POINTS = [
    ("1 own enums", lambda root: lines(root, ENUM)),
    ("1 numbers that say none", lambda root: lines(root, NONE_WORDS)),
    ("2 named after a width", lambda root: lines(root, WIDTH)),
    ("2 told as another", lambda root: lines(root, LIKE)),
    ("3 while and loop", lambda root: lines(root, LOOP)),
    ("3 counted on by hand", lambda root: lines(root, COUNTED)),
    ("4 casts", lambda root: lines(root, CAST)),
    ("4 bytes of numbers and words by hand", lambda root: lines(root, BY_HAND)),
    ("5 facts and parameters in three contracts", repeated),
    ("6 arrays of a fixed size", lambda root: lines(root, ARRAY)),
    ("7 tests in a row for what to run", lambda root: lines(root, CHAIN)),
    ("8 answers in proofs", answers),
]


def main(words):
    listed = "--list" in words
    roots = [word for word in words if not word.startswith("--")]
    root = roots[0] if roots else "."
    for name, find in POINTS:
        places = list(find(root))
        print(f"{len(places):5}  {name}")
        if listed:
            for place in places:
                print(f"         {place}")


main(sys.argv[1:])
