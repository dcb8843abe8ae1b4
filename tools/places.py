#!/usr/bin/env python3
"""Places of the design pass in crates/*/src, found by shape: `tools/places.py [COMMIT]`.

It reads the sources as they stand, or as they stood at a commit, without comments, and lists

1a  enums of the shape of Option or Result: two variants, of which one has one value and the other none or one
1b  structs with a `bool` beside other fields
3   `while` loops whose body counts a variable of the condition up or down by one
4   functions that compare two structs field by field
5a  functions whose `requires` says the length of a table
5b  functions that are lent all three tables
6   structs with an array and a count beside it

It judges nothing: docs/DESIGN-PASS.md says of each what became of it, and why where it stays.
"""
import re
import subprocess
import sys
from pathlib import Path


def sources(commit):
    if commit is None:
        for path in sorted(Path("crates").glob("*/src/**/*.rt")):
            yield str(path), path.read_text()
        return
    names = subprocess.run(["git", "ls-tree", "-r", "--name-only", commit, "crates"], capture_output=True, text=True, check=True)
    for name in names.stdout.split():
        if "/src/" in name and name.endswith(".rt"):
            yield name, subprocess.run(["git", "show", f"{commit}:{name}"], capture_output=True, text=True, check=True).stdout


def closing(text, at):
    """The index after the brace that closes the one at `at`."""
    depth = 0
    for i in range(at, len(text)):
        if text[i] == "{":
            depth += 1
        elif text[i] == "}":
            depth -= 1
            if depth == 0:
                return i + 1
    return len(text)


def bodies(text, pattern):
    for m in re.finditer(pattern, text, re.M):
        at = text.index("{", m.end() - 1)
        yield m, text[at + 1 : closing(text, at) - 1]


def functions(text):
    for m in re.finditer(r"\bfn (\w+)", text):
        brace = re.search(r"\n\s*\{\n", text[m.start() :])
        yield m, text[m.start() : m.start() + brace.start()] if brace else text[m.start() :]


def places(path, text):
    line = lambda m: text.count("\n", 0, m.start()) + 1
    for m, body in bodies(text, r"^\s*(?:pub(?:\(crate\))? )?enum (\w+)[^{]*\{"):
        variants = [v.strip() for v in re.split(r",\n", body) if v.strip()]
        counts = sorted(v.count("(") and len(v.split("(")[1].split(",")) for v in variants if "{" not in v)
        if len(variants) == 2 and counts in ([0, 1], [1, 1], [0, 2]):
            yield "1a", line(m), m.group(1)
    for m, body in bodies(text, r"^\s*(?:pub(?:\(crate\))? )?struct (\w+)[^{;(]*\{"):
        fields = [f for f in body.split("\n") if ":" in f and "ghost" not in f]
        flags = [f for f in fields if re.search(r": bool,", f)]
        if flags and len(fields) > len(flags):
            yield "1b", line(m), m.group(1)
        if any(re.search(r": \[", f) for f in fields) and any(re.search(r"\b(count|length|used|len)\b", f) for f in fields):
            yield "6", line(m), m.group(1)
    for m, body in bodies(text, r"^\s*while ([^{\n]*)\{"):
        for name in set(re.findall(r"\b[a-z_]\w*\b", m.group(1))):
            if re.search(rf"^\s*{name} (\+|-)= 1;", body, re.M):
                yield "3", line(m), f"while {m.group(1).strip()}"
                break
    for m, head in functions(text):
        if re.search(r"length (txns|locks|versions|\w+)\.(now|old) ≡ (txn|lock|version)_words base", head):
            yield "5a", line(m), m.group(1)
        if all(re.search(rf"\b{t}: &(mut )?\[?\w", head) for t in ("txns", "locks", "versions")):
            yield "5b", line(m), m.group(1)
    for m in re.finditer(r"\((\w+)\.(\w+) == (\w+)\.\2\)\s*&[\s(]*\(\1\.(\w+) == \3\.\4\)", text):
        yield "4", line(m), f"{m.group(1)} and {m.group(3)}"


def main():
    commit = sys.argv[1] if len(sys.argv) > 1 else None
    found = []
    for path, text in sources(commit):
        bare = re.sub(r"//[^\n]*", "", text)
        found += [(kind, path, at, what) for kind, at, what in places(path, bare)]
    for kind in sorted({k for k, *_ in found}):
        those = [f for f in found if f[0] == kind]
        print(f"{kind}: {len(those)}")
        for _, path, at, what in those:
            print(f"    {path}:{at} {what}")


main()
