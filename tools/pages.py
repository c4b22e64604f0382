#!/usr/bin/env python3
"""Brings the words between back quotes in the pages to today's names: tools/pages.py NAMES.json PAGE.., once."""
import json
import re
import sys

names = json.load(open(sys.argv[1]))
TOKEN = re.compile(r"[^\s(){}\[\],;.:λ←=|\"`/*]+")
for path in sys.argv[2:]:
    text = open(path, encoding="utf-8").read()
    fenced, out = False, []
    for line in text.split("\n"):
        if line.startswith("```"):
            fenced = not fenced

        def words(part):
            return TOKEN.sub(lambda m: names.get(m.group(0), m.group(0)), part)

        if fenced or line.startswith("    "):
            line = words(line)
        else:
            parts = line.split("`")
            for i in range(1, len(parts), 2):
                parts[i] = words(parts[i])
            line = "`".join(parts)
        line = re.sub(r"crates/bytes/", "crates/byte_bits/", line)
        out.append(line)
    new = "\n".join(out)
    if new != text:
        open(path, "w", encoding="utf-8").write(new)
        print(path)
