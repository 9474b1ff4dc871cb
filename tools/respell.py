#!/usr/bin/env python3
"""Brings the definitions and lemmas of specs/ and proofs/ to snake case, after /opt/rattle/port/port.py.

usage: tools/respell.py          at the top of the repository, once

A dash goes on joining two names; names of src/ keep their spelling, and so do types, facts and modules.
It goes over the sources, the must-fail edits and the pages, and prints each name that it turned.
"""

import re
import subprocess

WORD = re.compile(r"[^\W\d][\w'-]*")
# what a library has already turned, and a name that would fall together with another of its file
BY_HAND = {"noKey": "blank_key"}


def turned(word):
    if word in BY_HAND:
        return BY_HAND[word]
    parts = []
    for part in word.replace("getD", "get_or").split("-"):
        if re.match(r"[a-z]", part):
            part = re.sub(r"(?<=[a-z0-9])[A-Z]", lambda m: "_" + m.group().lower(), part)
        parts.append(part)
    return "-".join(parts)


def main():
    files = subprocess.check_output(["git", "ls-files", "crates"], text=True).split("\n")
    names = {}
    for path in files:
        if not path.endswith((".antt", ".rt")):
            continue
        with open(path, encoding="utf-8") as f:
            text = f.read()
        for word in WORD.findall(text):
            if re.match(r"[a-z]", word) and turned(word) != word:
                names[word] = turned(word)
    pages = subprocess.check_output(["git", "ls-files", "README.md", "docs"], text=True).split("\n")
    for path in files + pages:
        if not path.endswith((".antt", ".rt", ".edit", ".md")):
            continue
        with open(path, encoding="utf-8") as f:
            text = f.read()
        new = WORD.sub(lambda m: names.get(m.group(), m.group()), text)
        if new != text:
            with open(path, "w", encoding="utf-8") as f:
                f.write(new)
    for old, new in sorted(names.items()):
        print(old, new)


main()
