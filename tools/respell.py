#!/usr/bin/env python3
"""Brings the names of definitions and lemmas to the spelling of the toolchain's guides: words in snake case.

usage: tools/respell.py        at the top of a checkout, once, right after the toolchain's own port.py

tools/respell.txt has a line for each name: the old one, the new one, `field` where a record has a field of that name, and `clause`
where clauses of src/ have it though a function might. Only definitions, lemmas, fields and local names of specs/ and proofs/ are in
it. Functions of src/, exported names, strings, inputs and outputs keep their spelling. A name in a proof that follows a function's
steps (proofs/F/Proof.antt) is left alone behind a dot, unless it is a field: what stands there is the toolchain's.
"""

import glob
import os
import re

HERE = os.path.dirname(os.path.realpath(__file__))
CAMEL = re.compile(r"[a-z][a-z0-9]*[A-Z]")  # in src/ no function or variable is spelled so, only words of clauses
CLAUSE = re.compile(r"^ghost use |^ +(?:requires|ensures)\b[^{\n]*\{", re.M)
TOKEN = re.compile(r"«[^»]*»|\"[^\"\n]*\"|[^\s(){}\[\],;.:=«»\"`]+")


def table():
    names, marked = {}, {"field": set(), "clause": set()}
    with open(os.path.join(HERE, "respell.txt"), encoding="utf-8") as f:
        for line in f:
            old, new, *more = line.split()
            names[old] = new
            for mark in more:
                marked[mark].add(old)
    return names, marked


def clauses(text):
    """The places of a source's clauses and `ghost use` lines."""
    for m in CLAUSE.finditer(text):
        if text[m.end() - 1] != "{":
            yield m.start(), text.index(";", m.end())
            continue
        at, depth = m.end(), 1
        while depth:
            depth += {"{": 1, "}": -1}.get(text[at], 0)
            at += 1
        yield m.start(), at


def respelled(text, names, marked, walk, source):
    places = list(clauses(text)) if source else []

    def one(m):
        word = m.group(0)
        new = names.get(word)
        if new is None:
            return word
        if source and not CAMEL.match(word) and not (word in marked["clause"] and any(a <= m.start() < b for a, b in places)):
            return word
        dotted = m.start() > 0 and text[m.start() - 1] == "."
        if walk and dotted and word not in marked["field"]:
            return word
        return new

    return TOKEN.sub(one, text)


def main():
    names, marked = table()
    changed = 0
    for pattern in ("specs/**/*.antt", "proofs/**/*.antt", "src/**/*.rt"):
        for path in sorted(glob.glob(os.path.join("crates", "*", pattern), recursive=True)):
            with open(path, encoding="utf-8") as f:
                old = f.read()
            new = respelled(old, names, marked, path.endswith("Proof.antt"), path.endswith(".rt"))
            if new != old:
                changed += 1
                with open(path, "w", encoding="utf-8") as f:
                    f.write(new)
    print(f"respell: {changed} files changed")


main()
