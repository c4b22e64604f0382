#!/usr/bin/env python3
"""Brings the repository's own definitions, lemmas, record fields and constructors to snake case, after /opt/rattle/port/port.py.

usage: tools/rename.py          rewrites crates/*/specs, crates/*/proofs and the clauses of crates/*/src
       tools/rename.py --table  writes the names, old and new, to standard output, and changes nothing

The rule is PORTING.md's, part 3: words are in snake case, types and modules in camel case. A lemma that would then have the name of
another thing that its file can name gets `_lem` after it. Names from src/, and those that Rattle makes, keep their spelling.
"""

import os
import re
import sys

TOKEN = re.compile(r"[^\s(){}\[\],;.:λ←=|\"`⟨⟩«»⌜⌝@]+")
KEY = {"pub", "abbrev", "unfoldable", "private", "opaque"}


def files(kinds):
    for crate in sorted(os.listdir("crates")):
        for kind in kinds:
            for folder, dirs, names in os.walk(os.path.join("crates", crate, kind)):
                dirs.sort()
                for name in sorted(names):
                    if name.endswith((".antt", ".rt")):
                        yield os.path.join(folder, name)


def snake(name):
    """`oddOnes` and `odd-ones` as `odd_ones`; a name that begins with a capital is a type's, and stays."""
    if not name[0].isalpha() or name[0].isupper():
        return name
    parts = []
    for part in re.split(r"[-_]", name):
        part = re.sub(r"(?<=[a-z0-9₀-₉'])([A-Z])", r"_\1", part)
        part = re.sub(r"([A-Z]+)([A-Z][a-z])", r"\1_\2", part)
        parts.append(part.lower())
    return "_".join(parts)


def code(text):
    """The text with its comments blanked, at the same places."""
    return re.sub(r"--[^\n]*", lambda m: " " * len(m.group(0)), text)


def declared(text):
    """What a file of antt declares: its words, and the fields and constructors of its records and data."""
    words, members, inside = set(), set(), None
    for line in code(text).split("\n"):
        if not line.strip():
            continue
        if not line[0].isspace():
            inside = None
            parts = line.split()
            i = 0
            while i < len(parts) and parts[i] in KEY:
                i += 1
            if i == len(parts) or parts[i] in ("use", "mod", "unfolding", "open"):
                continue
            if parts[i] in ("record", "data"):
                inside = parts[i]
                continue
            if parts[i] == "ruleset":
                words.add(parts[i + 1])
                continue
            if i + 1 < len(parts) and parts[i + 1] == ":":
                words.add(parts[i])
        elif inside and re.match(r"  \S", line):
            m = re.match(r"  (?:pub )?(\S+)(?: \S+)* : ", line)
            if m and m.group(1) not in ("→", "×"):
                members.add(m.group(1))
    return words, members


def proof_of_function(path):
    return os.path.basename(path) == "Proof.antt"


def imports(text):
    """Each name that a `use` line brings, with its module."""
    out = []
    for m in re.finditer(r"^(?:ghost )?use ([^\n;]+?)\.\{([^}]*)\}", text, re.M):
        for it in m.group(2).split(","):
            it = it.strip()
            if it:
                out.append((it.split(" as ")[0].strip(), it.split(" as ")[-1].strip(), m.group(1)))
    return out


def own(module, crates):
    m = re.match(r"Rattle\.(\w+)\.", module + ".")
    return bool(m) and m.group(1) in crates


def made(module):
    """A module that Rattle makes: the declared types, a function's own."""
    if re.search(r"\.specs\.(declared|contracts)(\.|$)", module):
        return True
    return re.search(r"\.proofs\..*\.(Tie|Lts|Statement|Reads|Kinds|Met|Goals|Given)$", module) is not None


def plan():
    crates = set(os.listdir("crates"))
    texts = {p: open(p, encoding="utf-8").read() for p in files(["specs", "proofs", "src"])}
    words, members = {}, set()
    for p, t in texts.items():
        if p.endswith(".antt") and not proof_of_function(p):
            w, m = declared(t)
            words[p] = w
            members |= m
    every = set().union(*words.values())
    turned = {n: snake(n) for n in every | members if snake(n) != n}
    return crates, texts, words, every, members, turned


def collisions(crates, texts, words, every, members, turned):
    """The new names that a file would read as another's: the declarations that it makes or imports under that name."""
    bad = set()
    for p, t in texts.items():
        if not p.endswith(".antt"):
            continue
        c = re.sub(r"(?m)^use [^\n{]*", "", code(t))
        seen = {}
        for m in TOKEN.finditer(c):
            if c[m.start() - 1 : m.start()] != ".":
                seen.setdefault(turned.get(m.group(0), m.group(0)), set()).add(m.group(0))
        for new, olds in seen.items():
            if len(olds) > 1:
                for o in olds:
                    if o in turned:
                        bad.add((o, new, p, tuple(sorted(olds))))
    return bad


def turn(text, path, crates, turned, members, every):
    kept = {as_name for name, as_name, module in imports(text) if not own(module, crates) or made(module)}
    modules = {m.group(2) for m in re.finditer(r"^use ([^\n{]+?) as (\S+)$", text, re.M) if own(m.group(1), crates) and not made(m.group(1))}
    rt = path.endswith(".rt")

    def line(l, in_clause):
        body, comment = l, ""
        if not rt:
            k = l.find("--")
            if k >= 0:
                body, comment = l[:k], l[k:]
        if re.match(r"\s*(ghost )?use ", body):
            m = re.match(r"(.*?use )([^\n;]+?)\.\{([^}]*)\}(.*)$", body, re.S)
            if not m or not own(m.group(2), crates) or made(m.group(2)):
                return l
            names = [re.sub(r"^\S+", lambda x: turned.get(x.group(0), x.group(0)), it.strip()) for it in m.group(3).split(",")]
            return m.group(1) + m.group(2) + ".{" + ", ".join(names) + "}" + m.group(4) + comment

        def one(m):
            n = m.group(0)
            if n not in turned or n in kept:
                return n
            before = body[: m.start()]
            if before.endswith(".") and not before.endswith(".."):
                # a word of a module, or a field of a value: one of the repository's own records
                word = re.search(r"([\w'-]+)\.$", before)
                if word and (word.group(1)[0].isupper() or word.group(1) in modules):
                    return turned[n] if n in every else n
                return turned[n] if n in members else n
            return turned[n] if n in every or n in members else n

        done = TOKEN.sub(one, body)
        # a comment names words between back quotes
        comment = re.sub(r"`([^`]*)`", lambda m: "`" + TOKEN.sub(lambda x: turned.get(x.group(0), x.group(0)), m.group(1)) + "`", comment)
        return done + comment

    if not rt:
        return "\n".join(line(l, True) for l in text.split("\n"))
    # in a .rt file: the ghost use lines and the clauses
    out, depth, inside = [], 0, False
    for l in text.split("\n"):
        clause = inside or re.match(r"\s*(requires|ensures|ghost|invariant)\b", l)
        if clause and not re.match(r"\s*//", l):
            at = 0
            if not inside and not re.match(r"\s*ghost use", l):
                at = l.find("{") if "{" in l else len(l)
            head, rest = l[:at], l[at:]
            if re.match(r"\s*ghost use", l):
                l = line(l, True)
            else:
                l = head + line(rest, True)
                depth += rest.count("{") - rest.count("}")
                inside = depth > 0
                if depth < 0:
                    depth, inside = 0, False
        elif re.match(r"\s*//", l):
            l = re.sub(r"`([^`]*)`", lambda m: "`" + TOKEN.sub(lambda x: turned[x.group(0)] if x.group(0) in turned and x.group(0) not in members else x.group(0), m.group(1)) + "`", l)
        out.append(l)
    return "\n".join(out)


def main(argv):
    crates, texts, words, every, members, turned = plan()
    stated = set().union(*(w for p, w in words.items() if "/specs/" in p))
    # lemmas that fall together with another thing that a file can name: the dashed one of two gives way
    while True:
        found = sorted(collisions(crates, texts, words, every, members, turned))
        found = [f for f in found if any(o in every and o not in stated and not turned.get(o, o).endswith("_lem") for o in f[3])]
        if not found:
            break
        lemmas = [o for o in found[0][3] if o in every and o not in stated]
        lemmas.sort(key=lambda o: ("-" not in o, any(c.isupper() for c in o), o))
        turned[lemmas[0]] = turned.get(lemmas[0], lemmas[0]) + "_lem"
    if argv and argv[0] == "--collisions":
        for old, new, path, olds in sorted(collisions(crates, texts, words, every, members, turned)):
            print(f"{old} -> {new} in {path}: {olds}")
        return 0
    if argv and argv[0] == "--table":
        for old in sorted(turned):
            print(f"{old}\t{turned[old]}")
        return 0
    for p, t in texts.items():
        new = turn(t, p, crates, turned, members, every)
        if new != t:
            with open(p, "w", encoding="utf-8") as f:
                f.write(new)
    return 0


if __name__ == "__main__":
    raise SystemExit(main(sys.argv[1:]))
