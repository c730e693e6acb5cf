#!/usr/bin/env python3
"""Brings the repository's own names in specs/, proofs/ and clauses to today's spelling.

usage: tools/respell.py [--dry]     at the top of the repository, once, behind port.py

Words are in snake case (`node-locked` is `node_locked`), types in upper camel case (`All-locked` is `AllLocked`). Names of the
libraries keep their spelling, and so do the names that Rattle makes for a function's goals (`tie.Need-..`, `invariant-..`, `decreases-..`).
"""
import collections
import glob
import re
import sys

TOKEN = re.compile(r"[^\s(){}\[\],.;:«»\"]+")
USE = re.compile(r"^\s*(?:ghost )?(?:pub )?use ([^\s;{]+?)(?:\.?\{([^}]*)\})?(?: as ([^\s;]+))?;?\s*$", re.M)
MADE = re.compile(r"^(Need|invariant|decreases|loop|returns|overflow|ghost)-")

def crates():
    return [l.split(":")[0].split()[0] for l in open("crates.txt") if l.strip() and not l.startswith("#")]

OWN = set()

def own_module(path):
    m = re.match(r"Rattle\.(\w+)", path)
    return bool(m) and m.group(1) in OWN

def code_of(line, comment):
    """The parts of a line: (text, is code)."""
    out, at = [], 0
    for m in re.finditer(r'"(?:[^"\\]|\\.)*"|' + comment, line):
        out.append((line[at:m.start()], True))
        out.append((m.group(0), False))
        at = m.end()
    out.append((line[at:], True))
    return out

def uses(text):
    """The names that a file takes from the libraries, and the aliases of their modules."""
    names, modules = set(), set()
    for m in USE.finditer(text):
        path, items, alias = m.groups()
        if own_module(path):
            continue
        if items is not None:
            for it in items.split(","):
                it = it.strip()
                if not it:
                    continue
                parts = it.split(" as ")
                names.add(parts[0].strip())
                if len(parts) > 1:
                    names.discard(parts[0].strip())
        else:
            modules.add(alias or path.split(".")[-1])
    return names, modules

# lemmas that would have the name of the library's word that they are about
APART = {"bit-and": "bit_of_and", "bit-or": "bit_of_or", "bit-xor": "bit_of_xor"}

def new_name(t, types):
    if t in APART:
        return APART[t]
    if t[0].isupper() and t in types:
        return "".join(p[:1].upper() + p[1:] for p in t.split("-"))
    return t.replace("-", "_")

def main():
    dry = "--dry" in sys.argv
    OWN.update(crates())
    files = sorted(glob.glob("crates/*/specs/**/*.antt", recursive=True) + glob.glob("crates/*/proofs/**/*.antt", recursive=True))
    rts = sorted(glob.glob("crates/*/src/**/*.rt", recursive=True))
    # types: definitions whose signature ends in Type
    types = set()
    for f in files:
        t = open(f).read()
        for m in re.finditer(r"^\s*(?:(?:pub|abbrev|unfoldable|data|record|private)\s+)+([A-Z][^\s(){}\[\],.;:]*-[^\s(){}\[\],.;:]*)\s([^=]*?)(?:where|\n\s*\1|=)", t, re.M):
            if re.search(r"Type \d", m.group(2)):
                types.add(m.group(1))
        for m in re.finditer(r"^\s*([A-Z][^\s(){}\[\],.;:]*-[^\s(){}\[\],.;:]*) :((?:[^=]*?))(?:\n\s*\1\b)", t, re.M):
            if re.search(r"Type \d\s*$", m.group(2).strip()):
                types.add(m.group(1))
    library = collections.Counter()
    count = collections.Counter()
    where = collections.defaultdict(set)
    plan = {}
    existing = collections.defaultdict(set)
    changed = {}
    for f in files + rts:
        text = open(f).read()
        lib, mods = uses(text)
        for n in lib:
            if "-" in n:
                library[n] += 1
        comment = r"//.*$" if f.endswith(".rt") else r"(?:(?<=\s)|^)--(?=\s|-|$).*$"
        out = []
        for line in text.split("\n"):
            parts = []
            for seg, code in code_of(line, comment):
                if not code:
                    parts.append(seg)
                    continue
                def one(m):
                    t = m.group(0)
                    before = seg[:m.start()]
                    if "'-'" in t or "◌" in t or "-" not in t or not re.search(r"[^\W\d_]", t) or t.startswith("-") or t.endswith("-"):
                        if re.search(r"\w", t):
                            existing[t].add(f)
                        return t
                    if t in lib or MADE.match(t):
                        return t
                    if re.search(r"(?:^|[\s(\[{,])tie\.$", before):
                        return t
                    q = re.search(r"([^\s(){}\[\],;:]+)\.$", before)
                    if q and q.group(1).split(".")[0] in mods:
                        return t
                    n = new_name(t, types)
                    count[t] += 1
                    where[t].add(f)
                    plan[t] = n
                    return n
                parts.append(TOKEN.sub(one, seg))
            out.append("".join(parts))
        new = "\n".join(out)
        if new != text:
            changed[f] = new
    # names that fall together
    bad = 0
    back = collections.defaultdict(set)
    for a, b in plan.items():
        back[b].add(a)
    for b, s in sorted(back.items()):
        if len(s) > 1:
            print("together:", b, s, [len(where[x]) for x in s])
    for b, s in sorted(back.items()):
        if b in existing:
            both = set().union(*[where[x] for x in s]) & existing[b]
            if both:
                print("beside:", b, s, sorted(both)[:4], len(both))
    for t in sorted(plan):
        if t in library:
            print("library elsewhere:", t, library[t], sorted(where[t])[:3])
        if t[0].isupper():
            print("upper:", t, plan[t])
    print(len(plan), "names,", sum(count.values()), "places,", len(changed), "files")
    if not dry:
        for f, t in changed.items():
            open(f, "w").write(t)

main()
