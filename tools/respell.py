#!/usr/bin/env python3
"""Spells this repository's own definitions and lemmas as Rattle does: words in snake case, a dash only between two names.

usage: tools/respell.py        at the top of the repository, once, after the kit's port.py

A row of respell.tsv beside this file is a name, a tab, and its new spelling. Whole names turn, wherever they stand in .antt, .rt and .edit files
and in tests/definitions/edits.txt, and in the code spans and blocks of .md files. Behind a dot a lemma's row with the ending _lem turns without it:
there the name is that of a call. The file specs/CallContracts.antt of the crate model was Contracts.antt.
"""
import glob
import os
import re
import subprocess

HERE = os.path.dirname(os.path.abspath(__file__))
TOP = os.path.dirname(HERE)
WORD = re.compile(r"[^\s(){}\[\].;,@\"«»`|/:]+")
CODE = re.compile(r"```.*?```|`[^`\n]*`", re.S)


def rows():
    with open(os.path.join(HERE, "respell.tsv"), encoding="utf-8") as f:
        return dict(line.rstrip("\n").split("\t") for line in f)


def turned(text, table):
    def one(m):
        new = table.get(m[0])
        if new is None:
            return m[0]
        behind_dot = m.start() > 0 and text[m.start() - 1] == "."
        if behind_dot and new.endswith("_lem"):
            return m[0].replace("-", "_")
        return new

    return WORD.sub(one, text)


def main():
    table = rows()
    old = os.path.join(TOP, "crates/model/specs/Contracts.antt")
    if os.path.exists(old):
        subprocess.run(["git", "mv", old, old.replace("Contracts", "CallContracts")], check=True, cwd=TOP)
    whole = []
    for kind in ("specs/**/*.antt", "proofs/**/*.antt", "src/**/*.rt", "must-fail/*.edit"):
        whole += glob.glob(os.path.join(TOP, "crates/*", kind), recursive=True)
    whole.append(os.path.join(TOP, "tests/definitions/edits.txt"))
    pages = glob.glob(os.path.join(TOP, "*.md")) + glob.glob(os.path.join(TOP, "docs/**/*.md"), recursive=True)
    for path in whole + pages:
        with open(path, encoding="utf-8") as f:
            text = f.read()
        new = CODE.sub(lambda m: turned(m[0], table), text) if path in pages else turned(text, table)
        if new != text:
            with open(path, "w", encoding="utf-8") as f:
                f.write(new)


main()
