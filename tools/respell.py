#!/usr/bin/env python3
"""Respells this repository's own definitions and lemmas: words in snake case, facts and types in camel case.

usage: python3 tools/respell.py [FOLDER]    once, at the top, after the kit's port.py

names.tsv beside it has a row for each name: how it stands (or what port.py took it for), a tab, how it is written now.
Whole words alone turn: in specs/ and proofs/ everywhere, in src/ in clauses and comments (no code has a dash in a word, and the
words with capitals are left where they are code), and in README.md and docs/ inside code spans.
"""
import os
import re
import sys

WORD = re.compile(r'[^\s(){}.;,@"«»`]+')
CLAUSE = re.compile(r"(?:requires|ensures)\b[^{;]*\{|ghost\b[^{;]*\{|ghost use\b[^;]*;")
SPAN = re.compile(r"`[^`\n]+`")


def table(path):
    with open(path, encoding="utf-8") as f:
        return dict(line.rstrip("\n").split("\t") for line in f)


def turned(names, text):
    return WORD.sub(lambda m: names.get(m[0], m[0]), text)


def clauses(names, text):
    """The text with the names in its clauses turned: from `requires`, `ensures` or `ghost` to the brace that closes it."""
    out, at = [], 0
    for m in CLAUSE.finditer(text):
        if m.start() < at:
            continue
        end = m.end()
        if not m[0].endswith(";"):
            deep = 1
            while deep and end < len(text):
                deep += {"{": 1, "}": -1}.get(text[end], 0)
                end += 1
        out += [text[at : m.start()], turned(names, text[m.start() : end])]
        at = end
    return "".join(out) + text[at:]


def main(root):
    names = table(os.path.join(os.path.dirname(os.path.realpath(__file__)), "names.tsv"))
    for folder, dirs, files in os.walk(root):
        dirs[:] = sorted(d for d in dirs if d not in (".git", "out", "target", "tools"))
        for f in sorted(files):
            path = os.path.join(folder, f)
            if f.endswith(".antt"):
                turn = lambda text: turned(names, text)
            elif f.endswith(".rt"):
                turn = lambda text: clauses(names, text)
            elif f.endswith(".md") and f != "PORT.md":
                turn = lambda text: SPAN.sub(lambda m: turned(names, m[0]), text)
            else:
                continue
            with open(path, encoding="utf-8") as it:
                old = it.read()
            new = turn(old)
            if new != old:
                with open(path, "w", encoding="utf-8") as it:
                    it.write(new)


if __name__ == "__main__":
    main(sys.argv[1] if len(sys.argv) > 1 else ".")
