#!/usr/bin/env python3
"""Spells the repository's own definitions and lemmas as today's Rattle does: words in snake case, `_lem` where a lemma would have its function's name.

usage: python3 tools/respell.py        at the top of the repository, once, after port.py

tools/respell.tsv has a row for each name: as it stands after port.py, a tab, the new one. Whole names turn, in .antt and .rt files, in must-fail edits, and in code spans of pages.
Names of functions of src/, exports, strings, inputs and outputs stay. LEMMAS are names that fall together with a definition's new name: the lemma gives way, in the file that
declares it and in those that import it from there. SPOTS are names that port.py spelled as a type of the library.
"""

import glob
import os
import re

TOKEN = re.compile(r"[^\s(){}.;,@\"«»]+")
LEMMAS = [
    ("crates/laws/specs/Accept.antt", "bits_fit"),
    ("crates/raw_cell/specs/Bounds.antt", "bits_in"),
    ("crates/laws/specs/Records.antt", "cells_at"),
    ("crates/records/specs/Cells.antt", "numbers_of"),
    ("crates/theorems/specs/Histories.antt", "read_out"),
    ("crates/theorems/specs/GrammarOf.antt", "bits_of"),
    ("crates/laws/specs/Lay.antt", "block_at"),
    ("crates/promises/specs/Leads.antt", "after_one"),
]
SPOTS = {"Put-refused": "put_refused", "read-Flags": "read_flags", "Store-is": "store_is", "Known-of": "known_of"}


def module(path):
    crate, folder, name = re.match(r"crates/(\w+)/(specs|proofs)/(.*)\.antt$", path).groups()
    return f"Rattle.{crate}.{folder}.{name.replace('/', '.')}"


def undotted(text, table):
    """Each whole name of the table, but for one behind a dot."""

    def one(m):
        behind = m.start() and text[m.start() - 1] == "."
        return m[0] if behind else table.get(m[0], m[0])

    return TOKEN.sub(one, text)


def whole(text, table):
    return TOKEN.sub(lambda m: table.get(m[0], m[0]), text)


def spans(text, table):
    return re.sub(r"`[^`\n]+`", lambda m: "`" + whole(m[0][1:-1], table) + "`", text)


def main():
    with open("tools/respell.tsv", encoding="utf-8") as f:
        table = dict(line.rstrip("\n").split("\t") for line in f)
    files = sorted(
        p for p in glob.glob("crates/**/*", recursive=True) if p.endswith((".antt", ".rt", ".edit")) and "/out/" not in p
    )
    texts = {}
    for p in files:
        with open(p, encoding="utf-8") as f:
            texts[p] = f.read()
    for path, lemma in LEMMAS:
        imported = re.compile(rf"use {re.escape(module(path))}\.\{{[^}}]*(?<![\w'-]){lemma}(?![\w'-])[^}}]*\}}")
        for p in files:
            if p == path or imported.search(texts[p]):
                texts[p] = undotted(texts[p], {lemma: lemma + "_lem"})
    for p in files:
        new = whole(whole(texts[p], SPOTS), table)
        with open(p, encoding="utf-8") as f:
            old = f.read()
        if new != old:
            with open(p, "w", encoding="utf-8") as f:
                f.write(new)
    for p in ["README.md"] + sorted(glob.glob("docs/*.md")) + sorted(glob.glob("crates/*/README.md")):
        with open(p, encoding="utf-8") as f:
            old = f.read()
        new = spans(old, table)
        if new != old:
            with open(p, "w", encoding="utf-8") as f:
                f.write(new)


main()
