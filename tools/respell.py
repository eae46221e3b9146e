#!/usr/bin/env python3
"""Brings the repository's own definitions and lemmas to one spelling: words in snake case, types and modules in camel case.

usage: tools/respell.py [FOLDER]      once, right after port.py, in the repository (or in FOLDER)
       tools/respell.py --text FILE.. the same names in other texts (pages, edits): words in backquotes and whole lines of edits

`firstBelow` becomes `first_below` and `or-else-first` becomes `or_else_first`. A lemma that would get the name of a definition
beside it ends in `_lem`. Names of the library, of functions of src/, and those that Rattle makes in proofs stay.
"""
import collections
import json
import os
import re
import sys

NAME = r"[^\s(){}\[\].,;=⌜⌝«»\"`|→×]+"
TOKEN = re.compile(NAME)
DECLARED = re.compile(
    r"(?m)^(\s*)((?:(?:abbrev|unfoldable|pub|pattern|axiom|record|data|infixl?|infixr)\s+)*)([^\s:(){}.,;λ=→]+)\s*(?:\{[^}:]*\}\s*)?(?:\([^)]*\)\s*|\{[^}]*\}\s*)*:\s(.*)"
)
# Lemmas that port.py spelled as a definition is now to be spelled: they give way.
GIVE_WAY = ["box_in", "box_read", "digit_value", "has_room", "left_by", "left_in", "lines_start", "pair_found"]
MADE = re.compile(r"^(invariant|decreases|returns|loop|overflow|element|slice|shared|array|cast|add|mul|sub|same|Need|At|In|After|Then|Else)-")


def snake(n):
    if re.match("[A-Z]", n):
        return n
    n = n.replace("-", "_").replace("′", "'")
    return re.sub(r"([a-z0-9])([A-Z])", lambda m: m.group(1) + "_" + m.group(2).lower(), n)


def is_old(n):
    return bool(re.match(r"[a-z]", n)) and ("-" in n.strip("-") or bool(re.search("[a-z0-9][A-Z]", n)) or "′" in n)


def texts(root, ends):
    for folder, dirs, files in os.walk(os.path.join(root, "crates")):
        dirs[:] = sorted(d for d in dirs if d != "out")
        for f in sorted(files):
            if f.endswith(ends):
                yield os.path.join(folder, f)


def read(p):
    with open(p, encoding="utf-8") as f:
        return f.read()


def own_names(root):
    """The declared names and fields, the bound variables, and those that a proof declares for a goal that Rattle names."""
    declared, fields, bound, goals = set(), set(), set(), set()
    for p in texts(root, (".antt",)):
        t = read(p)
        for m in DECLARED.finditer(t):
            n = m.group(3)
            if not is_old(n):
                continue
            if "tie." in m.group(4) and "/proofs/" in p and not m.group(4).startswith("("):
                goals.add(n)
            elif m.group(1):
                fields.add(n)
            else:
                declared.add(n)
        for m in re.finditer(r"\blet\s+([^\s:=]+)\s*[:=]|λ\s*([^.]+)\.|\(([^():]+?) :\s|\{([^{}:]+?) :\s", t):
            for n in re.split(r"[\s,()]+", next(g for g in m.groups() if g)):
                if is_old(n):
                    bound.add(n)
        for m in re.finditer(r"(?m)^([a-z][^\s:=(]*)((?:\s+[^\s:=]+)*)\s+=(?:\s|$)", t):
            for n in m.group(2).split():
                n = n.strip("(){},")
                if is_old(n):
                    bound.add(n)
    return declared, fields, bound, goals


def foreign(t, crates):
    """The names that a file imports from libraries that are not the repository's."""
    out = set()
    for m in re.finditer(r"(?m)^(?:ghost )?use ([^\s{;]+?)\.\{([^}]*)\}", t):
        parts = m.group(1).split(".")
        if not (parts[0] == "Rattle" and len(parts) > 1 and parts[1] in crates):
            out |= set(re.split(r"[,\s]+", m.group(2)))
    return out


def table(root):
    declared, fields, bound, goals = own_names(root)
    made = goals - declared - fields
    names = {n for n in declared | fields | bound if n not in made or n in declared}
    to = {n: snake(n) for n in names}
    by = collections.defaultdict(set)
    for p in texts(root, (".antt", ".rt")):
        here = {}
        for n in set(TOKEN.findall(read(p))) & set(to):
            here.setdefault(to[n], set()).add(n)
        for k, v in here.items():
            if len(v) > 1:
                by[k] |= v
    for v in by.values():
        for n in v:
            if "-" in n:
                to[n] = to[n] + "_lem"
    taken = {snake(n) for n in names if "-" not in n}
    # a lemma beside a definition that port.py has spelled already
    for n in list(to):
        if "-" in n and to[n] == snake(n):
            for p in texts(root, (".antt",)):
                t = read(p)
                if n in t and re.search(r"(?<![\w.'-])" + re.escape(to[n]) + r"(?![\w.'-])", t):
                    s = set(TOKEN.findall(t))
                    if n in s and snake(n) in s:
                        to[n] = snake(n) + "_lem"
                        break
    return to, fields, made, taken


def turn(t, to, fields, skip, give):
    def one(m):
        n, a, b = m.group(0), m.start(), m.end()
        before = t[a - 1] if a else " "
        after = t[b] if b < len(t) else " "
        if n in give and before != "." and after != ".":
            return n + "_lem"
        if n not in to:
            return n
        if before == ".":
            return to[n] if n in fields else n
        if n in skip:
            return n
        return to[n]

    return TOKEN.sub(one, t)


def main(argv):
    if argv and argv[0] == "--text":
        here = os.path.dirname(os.path.realpath(__file__))
        known = json.load(open(os.path.join(here, "respelled.json")))
        for p in argv[1:]:
            t = read(p)
            if p.endswith(".edit"):
                new = turn(t, known["names"], set(known["fields"]), set(), known["gave_way"])
            else:
                new = re.sub(r"`[^`\n]+`", lambda m: turn(m.group(0), known["names"], set(known["fields"]), set(), []), t)
            if new != t:
                open(p, "w", encoding="utf-8").write(new)
        return
    root = argv[0] if argv else "."
    crates = set(os.listdir(os.path.join(root, "crates")))
    to, fields, made, taken = table(root)
    give = set(GIVE_WAY)
    clashes = []
    for p in list(texts(root, (".antt", ".rt"))):
        t = read(p)
        skip = foreign(t, crates)
        new = turn(t, to, fields, skip, give if p.endswith(".antt") else set())
        if new != t:
            had = {m.group(0) for m in TOKEN.finditer(t) if t[m.start() - 1 : m.start()] != "." and t[m.end() : m.end() + 1] != "."}
            for n in {m.group(0) for m in TOKEN.finditer(t)} & set(to):
                if n not in skip and to[n] in had and to[n] not in give and n != to[n]:
                    clashes.append((os.path.relpath(p, root), n, to[n]))
            with open(p, "w", encoding="utf-8") as f:
                f.write(new)
    with open(os.path.join(root, "tools", "respelled.json"), "w") as f:
        json.dump({"names": {k: v for k, v in sorted(to.items()) if k != v}, "fields": sorted(fields), "gave_way": GIVE_WAY}, f, indent=0, ensure_ascii=False)
    for c in clashes:
        print("look: %s: %s falls together with %s" % c)
    print(f"respelled {len(to)} names; {len(made)} names that proofs give to Rattle's goals stay")


if __name__ == "__main__":
    main(sys.argv[1:])
