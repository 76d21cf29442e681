#!/usr/bin/env python3
"""Spells the names that this repository's specs/ and proofs/ declare as today's Rattle does: words in snake case.

usage: tools/respell.py [FOLDER]

It was run once, after port.py of the kit. respell.tsv beside it has a row for each name: old, a tab, new, and for a name that turns
in some files alone a tab and these files below crates/. It turns whole names in .antt files, in .rt files (names with a capital or a
dash inside, which no item of the code has, so clauses, ghost use items and comments alone) and in the texts of must-fail edits.
A name behind a dot in a row with files is a step or a module, and stays.
"""

import os
import re
import sys

HERE = os.path.dirname(os.path.realpath(__file__))
WORD = re.compile(r"[^\s(){}.;,@\"«»\[\]]+")


def rows():
    everywhere, scoped = {}, []
    with open(os.path.join(HERE, "respell.tsv"), encoding="utf-8") as f:
        for line in f:
            row = line.rstrip("\n").split("\t")
            if len(row) == 2:
                everywhere[row[0]] = row[1]
            elif len(row) == 3:
                scoped.append((row[0], row[1], set(row[2].split())))
    return everywhere, scoped


def turned(text, table):
    return WORD.sub(lambda m: table.get(m[0], m[0]), text)


def main(root):
    everywhere, scoped = rows()
    crates = os.path.join(root, "crates")
    for folder, dirs, files in os.walk(crates):
        dirs[:] = [d for d in dirs if not (d == "out" and os.path.dirname(folder) == crates)]
        for name in files:
            path = os.path.join(folder, name)
            if not name.endswith((".antt", ".rt", ".edit")):
                continue
            with open(path, encoding="utf-8") as f:
                old = f.read()
            new = old
            if name.endswith(".antt"):
                for word, to, where in scoped:
                    if os.path.relpath(path, crates) in where:
                        new = re.sub(rf"(?<![\w.'-]){re.escape(word)}(?![\w'-])", to, new)
            if name.endswith(".edit"):
                new = "".join(turned(l, everywhere) if l.startswith(("old:", "new:")) else l for l in new.splitlines(keepends=True))
            else:
                new = turned(new, everywhere)
            if new != old:
                with open(path, "w", encoding="utf-8") as f:
                    f.write(new)


if __name__ == "__main__":
    main(sys.argv[1] if len(sys.argv) > 1 else ".")
