#!/usr/bin/env python3
"""The two long lists of docs/PORT.md: private signatures of the programs, and the must-fail edits whose text changed.

usage: python3 tools/port_tables.py edits|signatures THEN LOG..       THEN is LANDED, turned, in a folder; a LOG is what rt ci said
"""

import glob
import json
import os
import re
import subprocess
import sys

THEN, LOGS, WHAT = sys.argv[2], sys.argv[3:], sys.argv[1]
NOW = os.path.dirname(os.path.dirname(os.path.realpath(__file__)))


def canon(text):
    """Without what the spelling alone changes."""
    text = text.replace("′", "'").replace("getD", "get_or").replace("·specs.specs", ".specs").replace("·", ".").replace("⌜", "").replace("⌝", "")
    return re.sub(r"[\s()._◌{}-]", "", text).lower()


def read(path):
    with open(path, encoding="utf-8") as f:
        return f.read().strip()


def edits():
    why = {}
    for log in LOGS:
        for line in open(log, encoding="utf-8", errors="replace"):
            m = re.match(r"rt: must-fail (\S+)\.edit: refused, as it must be(?: \([^)]*\))?: (.*)", line)
            if m:
                said = m.group(2)
                goal = re.search(r"\.?/?(proofs/\S+?antt):\d+:\d+: (?:error: )?`([^`]+)`", said)
                hole = re.search(r"\(`([^`]+)`\)", said)
                at = re.search(r"(src/\S+?\.rt):\d+", said)
                if goal:
                    why[m.group(1)] = f"{goal.group(1)}: `{goal.group(2)}`"
                elif hole:
                    why[m.group(1)] = f"{at.group(1) if at else ''}: `{hole.group(1)}`"
                else:
                    why[m.group(1)] = said[:80]
    print("| edit | refused at | the text, where more than the spelling changed |")
    print("|---|---|---|")
    n = 0
    for p in sorted(glob.glob(os.path.join(NOW, "crates/*/must-fail/*.edit"))):
        rel = os.path.relpath(p, NOW)
        old = os.path.join(THEN, rel)
        if not os.path.exists(old):
            continue
        a, b = read(old), read(p)
        if a == b:
            continue
        n += 1
        key = rel.replace("crates/", "").replace("must-fail/", "")[: -len(".edit")]
        text = ""
        if canon(a) != canon(b):
            text = " ".join(b.split("\n")[1:])
            text = "`" + text.replace("|", "\\|").replace("`", "'") + "`"
        print(f"| {key} | {why.get(key, '?')} | {text} |")
    print(f"\n{n} of {len(glob.glob(os.path.join(THEN, 'crates/*/must-fail/*.edit')))}.")


def signatures():
    kit = os.path.dirname(subprocess.run(["rt", "doc"], capture_output=True, text=True).stdout.strip())
    said = subprocess.run([sys.executable, os.path.join(kit, "port/contracts.py"), THEN, NOW, "--json"], capture_output=True, text=True).stdout
    for name, was, now in json.loads(said)["signatures changed"]:
        if not name.startswith("trials "):
            print(f"    {name}\n      was {was}\n      is  {now}")


{"edits": edits, "signatures": signatures}[WHAT]()
