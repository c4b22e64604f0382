#!/usr/bin/env python3
"""The statements of the lemmas and theorems in proofs/ of two checkouts, side by side where they differ.

usage: tools/statements.py OLD NEW    OLD is LANDED after port.py and tools/rename.py; answers and invariants of functions are left out

It compares what stands at the left margin, and neither the declarations inside a `module` nor the bodies of definitions.
"""

import os
import re
import sys

KEY = {"pub", "abbrev", "unfoldable"}


def statements(text):
    """Each top-level name of a file of antt with what stands from its colon to its definition; a record or data with all its fields."""
    found, name, lines = {}, None, []

    def end():
        if name:
            found[name] = " ".join(" ".join(lines).split())

    for line in text.split("\n"):
        line = re.sub(r"(^|\s)--.*$", "", line).rstrip()
        if not line:
            continue
        if not line[0].isspace():
            parts = line.split()
            i = 0
            while i < len(parts) and parts[i] in KEY:
                i += 1
            word = parts[i] if i < len(parts) else ""
            if word in ("use", "mod", "unfolding", "open", ""):
                if word == "unfolding":
                    end()
                    name, lines = None, []
                continue
            if word in ("record", "data", "ruleset"):
                end()
                name, lines = parts[i + 1], [line]
                if word == "ruleset":
                    lines = [line]
                continue
            if i + 1 < len(parts) and parts[i + 1] == ":":
                end()
                name, lines = word, [line]
                continue
            # a definition's clause: the statement is over
            end()
            name, lines = None, []
        elif name:
            lines.append(line.strip())
    end()
    return found


def read(top):
    out = {}
    for crate in sorted(os.listdir(os.path.join(top, "crates"))):
        for folder, dirs, files in os.walk(os.path.join(top, "crates", crate, "proofs")):
            for f in sorted(files):
                if not f.endswith(".antt") or f == "Proof.antt":
                    continue
                path = os.path.join(folder, f)
                text = open(path, encoding="utf-8").read()
                if f in ("Answers.antt", "Invariants.antt") and re.search(r"^use .* as goal$", text, re.M):
                    continue
                text = text.replace("Rattle.bytes.", "Rattle.byte_bits.")
                out[os.path.relpath(path, os.path.join(top, "crates")).replace("bytes/", "byte_bits/", 1) if crate == "bytes" else os.path.relpath(path, os.path.join(top, "crates"))] = statements(text)
    return out


def main(old, new):
    a, b = read(old), read(new)
    same = changed = gone = 0
    for path in sorted(a):
        for name, said in a[path].items():
            here = b.get(path, {}).get(name)
            if here == said:
                same += 1
            elif here is None:
                gone += 1
                print(f"gone: {path}: {said}")
            else:
                changed += 1
                print(f"changed: {path}\n    - {said}\n    + {here}")
    more = sum(1 for path in b for name in b[path] if name not in a.get(path, {}))
    print(f"statements in proofs/: {same} the same, {changed} changed, {gone} gone, {more} new")


main(*sys.argv[1:])
