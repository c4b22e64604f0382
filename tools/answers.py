#!/usr/bin/env python3
"""Turns each proofs/F/Proof.antt that only closes `tie.spec` into Invariants.antt and Answers.antt, once.

usage: tools/answers.py LANDED NAMES CRATE..    LANDED is a checkout of the landed commit; NAMES/CRATE/names.json is what `rattle check --generated NAMES/CRATE --old-names` wrote

A goal goes by its new name, a step of the code by its own, with no `before` on the way to it; `search rules` is what the check tries
by itself, so such an answer goes. What it leaves to do by hand it prints.
"""

import json
import os
import re
import sys

LOOPS = {"holds": "init", "less": "smaller", "again": "preserved"}
PATH = re.compile(r"\.([^\s(){}\[\],;.:λ←=|\"`]+)")


def flat(name):
    return name.replace("_", "-")


def blocks(text):
    """The head comment, the use lines and the declarations of a file, each with the comments above it."""
    head, uses, decls, comments = [], [], [], []
    current = None
    for line in text.split("\n"):
        if line.startswith("use "):
            uses.append(line)
            current = None
        elif line.startswith("--"):
            (comments if uses or decls else head).append(line)
            current = None
        elif not line.strip():
            if current is not None:
                current["lines"].append(line)
        elif not line[0].isspace() and re.match(r"((abbrev|pub|unfoldable) )*\S+( \{.*\}| \(.*\))* :( |$)", line) or line.startswith(("pub record ", "record ", "pub data ", "data ", "ruleset ", "pub ruleset ")):
            current = {"comments": comments, "lines": [line]}
            comments = []
            decls.append(current)
        elif current is not None:
            if comments:
                current["lines"] += comments
                comments = []
            current["lines"].append(line)
        else:
            current = {"comments": comments, "lines": [line]}
            comments = []
            decls.append(current)
    for d in decls:
        while d["lines"] and not d["lines"][-1].strip():
            d["lines"].pop()
        m = re.match(r"((?:abbrev |pub |unfoldable )*)(\S+)\s*(.*)$", d["lines"][0])
        d["name"] = m.group(2)
    return head, uses, decls


def tokens(text, table):
    """Each bare word of the table, not after a dot, replaced."""
    def one(m):
        return m.group(1) + table[m.group(2)]
    if not table:
        return text
    words = "|".join(sorted((re.escape(w) for w in table), key=len, reverse=True))
    return re.sub(r"(^|[\s(){}\[\],;←λ×])(" + words + r")(?=$|[\s(){}\[\],;.])", one, text)


def turn_file(path, crate, names, said):
    text = open(path, encoding="utf-8").read()
    where = os.path.relpath(os.path.dirname(path), f"crates/{crate}/proofs").replace("/", ".")
    key = f"Rattle-{crate}-proofs.{where}.Lts"
    if "tie.close" not in text or key not in names:
        said.append(f"{path}: by hand (no tie.close, or no names)")
        return
    it = names[key]
    head, uses, decls = blocks(text)
    spec = decls[-1]
    body = " ".join(spec["lines"])
    m = re.search(r"tie\.spec\b(.*?)\)*\s*$", body)
    args = m.group(1).replace(")", " ").split() if m else re.search(r"tie\.close\s+tie\.spec", body) and [] or []
    by_name = {d["name"]: d for d in decls[:-1]}
    invariants = [a for a in args if a in by_name and re.match(r"(abbrev )?\S+ : tie\.(invariant|InvT)", by_name[a]["lines"][0])]
    measures = [a for a in args if a in by_name and re.match(r"(abbrev )?\S+ : tie\.(decreases|MeasureT)", by_name[a]["lines"][0])]
    goals = [a for a in args if a not in invariants and a not in measures]
    needs = it["needs"]
    # old goal names, as the landed file spelled them
    old = {}
    landed = os.path.join(LANDED, path)
    if os.path.exists(landed):
        t = open(landed, encoding="utf-8").read()
        lm = re.search(r"tie\s*\.\s*spec\b(.*?)\)*\s*$", " ".join(blocks(t)[2][-1]["lines"]))
        largs = lm.group(1).replace(")", " ").split() if lm else []
        lneeds = dict(re.findall(r"^(\S+) :\s+tie\.Need-(\S+)", t, re.M))
        if len(largs) == len(args):
            for a, l in zip(args, largs):
                if l in lneeds:
                    n = lneeds[l]
                    for x, y in LOOPS.items():
                        n = re.sub(r"-" + x + r"(-\d+)?$", lambda k: "-" + y + (k.group(1) or ""), n)
                    old[a] = n
    table = {flat(o): n for o, n in needs}
    goal_of, place_of = {}, {}
    asked = {flat(n[0]): q[0] for n, q in zip(needs, it["asked_at"])}
    for i, a in enumerate(goals):
        o = flat(old.get(a, ""))
        if o in table:
            goal_of[a] = table[o]
            place_of[a] = asked[o]
        elif len(goals) == len(needs):
            goal_of[a] = needs[i][1]
            place_of[a] = it["asked_at"][i][0]
        else:
            settled = [s for s in it["settled"] if flat(s).endswith(o)]
            if not settled or not o:
                said.append(f"{path}: no goal for `{a}` ({old.get(a)}); goals: {[n for n in needs]}")
    # steps: on the way to a place each has one name
    parents = {place: (parent, o, n) for place, parent, (o, n), callee, more in it["places"]}
    fresh = {n for place, parent, (o, n), callee, more in it["places"]}
    everywhere = {}
    for place, parent, (o, n), callee, more in it["places"]:
        if o and (not n.endswith("-1") or "arg" in o):
            everywhere.setdefault(flat(o), n)

    def way(place):
        table = {}
        while place in parents:
            parent, o, n = parents[place]
            if o and (not n.endswith("-1") or "arg" in o):
                table.setdefault(flat(o), n)
            place = parent
        return table

    def turn_body(t, place=None):
        here = dict(everywhere)
        if place:
            here.update(way(place))

        def field(mm):
            w = mm.group(1)
            if flat(w) in here:
                return "." + here[flat(w)]
            if w not in fresh and re.fullmatch(r"[a-z][a-z0-9]*(-[a-z][a-z0-9]*)+", w):
                return "." + w.replace("-", "_")
            return "." + w

        t = re.sub(r"(?:\.before)+(?=\.)", "", t)
        t = re.sub(r"(\w)(?:\.before)+(?![\w-])", r"\1", t)
        return PATH.sub(field, t)

    kept_uses = [u for u in uses if not re.search(r"\.(Statement\.\{statement\}|Tie as tie)$", u)]
    module = f"Rattle.{crate}.proofs.{where}"
    loops = it["loops"]
    inv_lines, ans_lines = [], []
    lemma_text = "\n".join("\n".join(d["lines"]) for d in decls[:-1] if d["name"] not in args)
    inv_text = ""
    for i, (names_of, is_inv) in enumerate([(invariants, True), (measures, False)]):
        for k, a in enumerate(names_of):
            (oldl, newl), vs = loops[k][0], loops[k][1]
            changed = it["changed"][k]
            d = by_name[a]
            sig = [l for l in d["lines"] if not l.startswith("unfolding")]
            unfold = [l for l in d["lines"] if l.startswith("unfolding")]
            defn = "\n".join(sig[1:])
            head_, _, rest = defn.partition("=")
            params = head_.split()[1:]
            want = []
            for v, ch in zip(vs, changed):
                want.append(f"l.initial.{v}" if ch else f"l.{v}")
            want += [f"l.{v}" for v, ch in zip(vs, changed) if ch]
            if len(params) != len(want):
                said.append(f"{path}: loop {newl}: {params} against {want}")
            sub = dict(zip(params, want))
            word = ("invariant-" if is_inv else "decreases-") + newl
            inv_lines += d["comments"] + [f"abbrev pub {word} : goal.{word}"] + unfold + [f"{word} l =" + tokens(rest, sub)] + [""]
    order = 0
    for d in decls[:-1]:
        a = d["name"]
        if a in invariants or a in measures:
            continue
        if a in goals:
            if a not in goal_of:
                continue
            g = goal_of[a]
            lines = d["lines"]
            unfold = [l for l in lines[1:] if l.startswith("unfolding")]
            rest = [l for l in lines[1:] if not l.startswith("unfolding")]
            # the type may go on for a line or two
            k = next((j for j, l in enumerate(rest) if re.match(re.escape(a) + r"( |$)", l)), 0)
            rest = rest[k:]
            t = "\n".join(rest)
            t = re.sub(r"^" + re.escape(a) + r" c( κs)?( =|\n)", lambda mm: g + " c" + mm.group(2), t)
            t = turn_body(t, place_of.get(a))
            simple = re.sub(r"\s+", " ", t.split("=", 1)[1]).strip() if "=" in t else ""
            if simple in ("search rules", "omega arith", "refl", "search (rules, arith)") and not unfold:
                continue
            ans_lines += d["comments"] + [f"pub {g} : goal.{g}"] + unfold + [t] + [""]
        else:
            ans_lines += d["comments"] + [turn_body("\n".join(d["lines"]))] + [""]
    # answers cite one another's local names never; invariants may be cited in lemmas
    os.remove(path)
    folder = os.path.dirname(path)
    if inv_lines:
        t = "\n".join(head + kept_uses + [f"use {module}.Given as goal", ""] + inv_lines).rstrip() + "\n"
        open(os.path.join(folder, "Invariants.antt"), "w", encoding="utf-8").write(t)
    if any(l.startswith("pub ") for l in ans_lines):
        t = "\n".join(head + kept_uses + [f"use {module}.Goals as goal", ""] + ans_lines).rstrip() + "\n"
        open(os.path.join(folder, "Answers.antt"), "w", encoding="utf-8").write(t)
    if re.search(r"\btie\.", "\n".join(ans_lines + inv_lines)):
        said.append(f"{path}: cites tie.")
    if not os.listdir(folder):
        os.rmdir(folder)


def main(argv):
    global LANDED
    LANDED, where = argv[0], argv[1]
    for crate in argv[2:]:
        names = json.load(open(os.path.join(where, crate, "names.json")))
        said = []
        for folder, dirs, files in os.walk(os.path.join("crates", crate, "proofs")):
            if "Proof.antt" in files:
                turn_file(os.path.join(folder, "Proof.antt"), crate, names, said)
        for s in said:
            print(s)


main(sys.argv[1:])
