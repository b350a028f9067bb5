#!/usr/bin/env python3
"""Spells the repository's own definitions and lemmas in snake case: names.tsv beside this file has a row for each name, old and new.

usage: tools/names.py [--check]     at the top of the repository
It is run once, right after the upgrade that PORT.md names. Whole words turn, all at once: in specs/ and proofs/, in the clauses, imports and comments of src/, in must-fail edits, and in the code
spans of the papers. Strings and Rust's own names stay. --check writes nothing and names each file that would change.
"""

import os
import re
import sys

HERE = os.path.dirname(os.path.abspath(__file__))
WORD = re.compile(r'[^\s(){}.;,@"«»`]+')
STRING = re.compile(r'"(?:[^"\\\n]|\\.)*"')
SPAN = re.compile(r"`[^`\n]*`")


def table():
    with open(os.path.join(HERE, "names.tsv"), encoding="utf-8") as f:
        return dict(line.rstrip("\n").split("\t") for line in f if "\t" in line)


def turned(text, names):
    return WORD.sub(lambda m: names.get(m[0], m[0]), text)


def outside_strings(text, names):
    out, at = [], 0
    for m in STRING.finditer(text):
        out += [turned(text[at : m.start()], names), m[0]]
        at = m.end()
    return "".join(out) + turned(text[at:], names)


def papers(text, names):
    return SPAN.sub(lambda m: turned(m[0], names), text)


def files():
    for top, dirs, names in os.walk("crates"):
        dirs[:] = sorted(d for d in dirs if d != "out")
        for name in sorted(names):
            if name.endswith((".antt", ".rt")):
                yield os.path.join(top, name), outside_strings
            elif name.endswith(".edit"):
                yield os.path.join(top, name), turned
    yield "README.md", papers
    for top in ("docs", os.path.join("docs", "changes")):
        for name in sorted(os.listdir(top)):
            if name.endswith(".md"):
                yield os.path.join(top, name), papers


def main():
    names = table()
    for path, how in files():
        with open(path, encoding="utf-8") as f:
            text = f.read()
        new = how(text, names)
        if new != text:
            print(path)
            if "--check" not in sys.argv:
                with open(path, "w", encoding="utf-8") as f:
                    f.write(new)


main()
