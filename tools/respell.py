#!/usr/bin/env python3
"""Respells the repository's own definitions and lemmas: words in snake case, and a dash only between two names.

usage: python3 tools/respell.py [--list]      at the top of the repository, once

It reads which names with a dash the files of specs/ and proofs/ declare, goals of a function aside, and rewrites them
in every file of specs/, proofs/ and src/, and between backticks in README.md and docs/. A name that would fall together
with another one has its new name in TABLE.
--list prints the names and what they fall together with, and writes nothing.
"""

import os
import re
import sys

# Names whose dash joins two names of functions, and names that need another word.
TABLE = {
    "length-below": "length-below",
    "getD-below": "get_or-below",
    "getD-pairs": "get_or-pairs",
    "those-append": "those-append",
    "those-below": "those-below",
    "those-counting": "those-range_with_len",
    "length-those-below": "length-those-below",
    "length-those-counting": "length-those-range_with_len",
    "length-those-le": "length-those_le",
    "length-distances": "length-distances",
    "steps-place": "steps-place",
    "open-floor": "open_model",
    "drawn-floor": "drawn_model",
    "at-end": "reading_at_end",
}

WORD = re.compile(r"[^\s(){}\[\],;.:@\"«»|`]+")
QUOTED = re.compile(r"`[^`\n]*`")
DECLARED = re.compile(r"^\s*(?:(?:abbrev|unfoldable|pub|record|data|ruleset)\s+)*([^\s:(){}]+)\s*(?:\([^)]*\)\s*|\{[^}]*\}\s*)*:(?!=)")
GOALS = ("Answers.antt", "Invariants.antt", "Proof.antt")


def files(root):
    for folder, dirs, names in os.walk(os.path.join(root, "crates")):
        dirs[:] = sorted(d for d in dirs if d != "out")
        for name in sorted(names):
            if name.endswith((".rt", ".antt")):
                yield os.path.join(folder, name)


def declared(root):
    found = set()
    for path in files(root):
        if path.endswith(GOALS) or path.endswith(".rt"):
            continue
        with open(path) as f:
            for line in f:
                m = DECLARED.match(line)
                if m and "-" in m.group(1) and not m.group(1).startswith(("-", "◌")):
                    found.add(m.group(1))
    return found


def main():
    root = os.getcwd()
    names = {n: TABLE.get(n, n.replace("-", "_")) for n in declared(root)}
    texts = {}
    for path in files(root):
        with open(path) as f:
            texts[path] = f.read()
    if "--list" in sys.argv:
        words = {}
        for path, text in texts.items():
            for w in WORD.findall(text):
                words.setdefault(w, set()).add(os.path.relpath(path, root))
        for old, new in sorted(names.items()):
            if old != new and new in words:
                print(old, "->", new, "stands already in", " ".join(sorted(words[new])))
        by = {}
        for old, new in names.items():
            by.setdefault(new, []).append(old)
        for new, olds in by.items():
            if len(olds) > 1:
                print("fall together:", olds)
        return
    for path in ["README.md"] + [os.path.join("docs", p) for p in sorted(os.listdir("docs")) if p.endswith(".md")]:
        with open(path) as f:
            texts[path] = f.read()

    def respelled(text):
        return WORD.sub(lambda m: names.get(m.group(0), m.group(0)), text)

    for path, text in texts.items():
        new = QUOTED.sub(lambda m: respelled(m.group(0)), text) if path.endswith(".md") else respelled(text)
        if new != text:
            with open(path, "w") as f:
                f.write(new)
    print(len(names), "names")


main()
