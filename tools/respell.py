#!/usr/bin/env python3
"""Spells the repository's own definitions and lemmas as today's Rattle does: words in snake case.

usage: tools/respell.py [REPOSITORY]

Run once, on what port.py wrote, by the table respell.tsv beside this file: an old name, a tab, the new
name, and where it is for a part of the crates alone, a tab and the beginning of the path below crates/.
Whole words turn, in specs/, proofs/ and must-fail/, and in the clauses and ghost lines of src/. A name
with a dash turns in no .rt file, where it may be a subtraction.
An entry of crates/outcomes is named after its function, whose name keeps its spelling.
"""

import glob
import os
import re
import sys

HERE = os.path.dirname(os.path.realpath(__file__))
ROOT = sys.argv[1] if len(sys.argv) > 1 else os.path.dirname(HERE)
WORD = re.compile(r'[^\s(){}.;,@"«»`]+')
ENTRY = re.compile(r"(?m)^pub (\S+) : OneOutcome\w* (\S+)\.ended ")

everywhere, within = {}, []
with open(os.path.join(HERE, "respell.tsv"), encoding="utf-8") as table:
    for line in table:
        if not line.startswith("#"):
            old, new, *where = line.rstrip("\n").split("\t")
            if where:
                within.append((where[0], old, new))
            else:
                everywhere[old] = new

def turned(text, names):
    return WORD.sub(lambda word: names.get(word[0], word[0]), text)

def entries(text):
    """The entries of a file, number-read-u16 for number.read_u16, each under its function's own name."""
    plain = re.compile(r"[-._]")
    return {
        name: path.replace(".", "-")
        for name, path in ENTRY.findall(text)
        if plain.split(name) == plain.split(path)
    }

for kind in ("src/**/*.rt", "specs/**/*.antt", "proofs/**/*.antt", "must-fail/*.edit"):
    for path in glob.glob(os.path.join(ROOT, "crates", "*", kind), recursive=True):
        inside = os.path.relpath(path, os.path.join(ROOT, "crates"))
        names = everywhere | {old: new for where, old, new in within if inside.startswith(where)}
        if path.endswith(".rt"):
            names = {old: new for old, new in names.items() if "-" not in old}
        with open(path, encoding="utf-8") as file:
            text = file.read()
        if inside.startswith("outcomes/proofs/"):
            names = names | entries(text)
        new = turned(text, names)
        if new != text:
            with open(path, "w", encoding="utf-8") as file:
                file.write(new)
