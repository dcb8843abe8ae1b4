#!/usr/bin/env python3
"""Respells the repository's own names of specs/ and proofs/ as tools/respelled-names.txt lists them.

usage: python3 tools/respell.py [FOLDER]      once, after the kit's own script and before any edit by hand

A definition or a lemma is in snake case; of two names that would fall together the lemma has `_lem` behind it. A dash stays
where it joins the names of two definitions. Functions of src/ keep their names, and so do strings, inputs and outputs. In
comments and pages only definitions are respelled, since a lemma's dash may be a hyphen there.
"""

import os
import re
import sys

HERE = os.path.dirname(os.path.realpath(__file__))
ROOT = sys.argv[1] if len(sys.argv) > 1 else os.path.dirname(HERE)
TOKEN = re.compile(r"[^\s(){}\[\];:.,|λ\\\"`←]+")

with open(os.path.join(HERE, "respelled-names.txt"), encoding="utf-8") as f:
    NAMES = dict(line.split() for line in f if line.strip())
HUMPS = {old: new for old, new in NAMES.items() if re.search(r"[a-z0-9][A-Z]", old)}
# a lemma that bears the name that a definition gets, and maybe a function of src/ does: no part of a path
PLAIN = {old for old in NAMES if old not in HUMPS and "-" not in old}


def turned(text, names):
    def one(m):
        word = m.group(0)
        if word not in names:
            return word
        if word in PLAIN and (text[m.start() - 1 : m.start()] == "." or text[m.end() : m.end() + 1] == "."):
            return word
        return names[word]

    return TOKEN.sub(one, text)


def apart(line, mark):
    """A line's text and its comment."""
    at = line.find(mark)
    return (line, "") if at < 0 else (line[:at], line[at:])


def antt(text):
    out = []
    for line in text.splitlines(keepends=True):
        said, comment = apart(line, "-- ")
        out.append(turned(said, NAMES) + turned(comment, HUMPS))
    return "".join(out)


def rust(text):
    out = []
    for line in text.splitlines(keepends=True):
        said, comment = apart(line, "//")
        names = NAMES if said.startswith("ghost use ") else HUMPS
        parts = re.split(r'("(?:[^"\\]|\\.)*")', said)
        out.append("".join(p if i % 2 else turned(p, names) for i, p in enumerate(parts)) + turned(comment, HUMPS))
    return "".join(out)


def edit(text):
    return "".join(turned(line, NAMES) for line in text.splitlines(keepends=True))


def page(text):
    return re.sub(r"`[^`\n]+`", lambda m: turned(m.group(0), HUMPS), text)


def main():
    changed = 0
    for top, turn_all in (("crates", False), ("docs", True), ("README.md", True)):
        path = os.path.join(ROOT, top)
        found = [path] if os.path.isfile(path) else []
        for folder, folders, files in os.walk(path):
            folders[:] = [x for x in folders if x not in ("out", "wip")]
            found += [os.path.join(folder, x) for x in files]
        for p in sorted(found):
            if p.endswith(".antt"):
                turn = antt
            elif p.endswith(".rt"):
                turn = rust
            elif p.endswith(".edit"):
                turn = edit
            elif turn_all and p.endswith(".md") and os.path.basename(p) != "PORT.md":
                turn = page
            else:
                continue
            with open(p, encoding="utf-8") as f:
                old = f.read()
            new = turn(old)
            if new != old:
                changed += 1
                with open(p, "w", encoding="utf-8") as f:
                    f.write(new)
    print(f"respelled {changed} files")


main()
