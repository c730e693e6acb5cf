#!/usr/bin/env python3
"""Brings the must-fail edits over from the older spelling to today's.

usage: tools/port_edits.py OLD      at the top of the repository: turns crates/*/must-fail/*.edit of the clone OLD into those of this one
       tools/port_edits.py --check  says of each edit here whether its texts stand once, one behind the other, in today's files

An edit changes one line of an old file. The changed line and the unchanged one are turned by the same rules; where the rules make of
the unchanged line the very line that stands today, they are trusted with the changed one. What they can't turn is written out in HAND.
"""
import functools
import glob
import os
import re
import sys

# The crates that have another name today.
CRATES = {"bytes": "byte_strings"}

# Words of the libraries that have another name today.
WORDS = {"getD": "get_or"}

# Lemmas and definitions that tools/respell.py kept apart from a word of the library.
APART = {"bit-and": "bit_of_and", "bit-or": "bit_of_or", "bit-xor": "bit_of_xor"}

# Pairs written by hand: (crate, edit, old text of the old pair) -> (old, new) of today.
HAND = {
    ("protocol", "wait_fills_a_buffer", "use mathlib.Core.List.{List}"): ("List, length}", "List, [], ◌∷◌, length}"),
    ("traces", "document_behind_some_open_ones", "use Prim.Native.Nat.{ℕ, _≤_, _<_}"): ("{◌≡◌, ℕ, ◌≤◌, ◌<◌", "{◌≡◌, ℕ, ◌-◌, ◌≤◌, ◌<◌"),
    ("traces", "last_commit_left_out", "use Prim.Native.Nat.{ℕ, _≤_, _<_}"): ("{◌≡◌, ℕ, ◌≤◌, ◌<◌", "{◌≡◌, ℕ, ◌-◌, ◌≤◌, ◌<◌"),
}

# Names of the code in the words of an edit.
SAID = [("count-of is claimed", "count_of is claimed")]

WORD = re.compile(r"(?<!\w)[^\W\d][\w']*")
KEYWORDS = {"true", "false"}
NAME = re.compile(r"[^\s(){}\[\],;:.·\"]+")


def read(path):
    with open(path, encoding="utf-8") as f:
        return f.read()


def parse(text):
    """An edit as a list of [kind, text]: kinds are file, old, new, and '' for any other line."""
    out = []
    for line in text.split("\n"):
        m = re.match(r"(file|old|new): ?(.*)$", line, re.S)
        out.append([m.group(1), m.group(2)] if m else ["", line])
    return out


def pairs(edit):
    """The pairs of an edit, as (file, place of old, place of new) in its list of lines."""
    path = old = None
    for i, (kind, text) in enumerate(edit):
        if kind == "file":
            path = text
        elif kind == "old":
            old = i
        elif kind == "new":
            yield path, old, i
            old = None


# ---- names


def bound(text):
    """The variables that a text binds itself."""
    return {w for m in re.finditer(r"λ ([^.]*)\.|let (?:mut )?(\w+) =", text) for w in WORD.findall(m.group(0))}


@functools.lru_cache(None)
def words_of(path):
    return frozenset(NAME.findall(read(path)))


@functools.lru_cache(None)
def words_everywhere():
    files = glob.glob("crates/*/specs/**/*.antt", recursive=True) + glob.glob("crates/*/src/**/*.rt", recursive=True)
    return frozenset().union(*[words_of(f) for f in files])


def name(t, path):
    """A name in today's spelling: the one that stands in the file, or else anywhere in the repository."""
    if t in WORDS:
        return WORDS[t]
    t = t.replace("′", "'").replace("″", "''")
    if re.match(r"_[^\w\s]+_$", t):
        return "◌" + t[1:-1] + "◌"
    if not re.search(r"\w-\w", t):
        return t
    shapes = [APART[t]] if t in APART else []
    shapes += [t.replace("-", "_"), "".join(p[:1].upper() + p[1:] for p in t.split("-"))]
    for words in (words_of(path), words_everywhere()):
        for s in shapes:
            if s in words:
                return s
    raise LookupError("no name " + t)


# ---- expressions of the specifications

PIECE = re.compile(r"(\s+|\"(?:[^\"\\]|\\.)*\"|[(){}\[\],;:]|[^\s(){}\[\],;:]+)")
BREAK = set("=:;,→×≡≤<∷+-*/&|^↔⊎λ{}[]") | {"&&", "||", "++", "->", ":=", "in", "let", "pub", "where", "rec", "record"}


def tight(text):
    """`f x .g y` as `(f x).g y`, and `(x .g)` as `x.g`."""
    stack = [[]]    # the pieces of each bracket that is open; an empty one stands before a projection
    for p in PIECE.findall(text):
        if p in "({[":
            stack.append([p])
        elif p in ")}]" and len(stack) > 1:
            inner = stack.pop() + [p]
            body = "".join(inner[1:-1])
            if p == ")" and len(inner) > 3 and "" in inner and not re.search(r"\s", body) and BREAK.isdisjoint(body):
                stack[-1].append(body)     # a lone projection wants no brackets
            elif p == ")" and re.fullmatch(r"\(.*\)\.[\w.]+", body, re.S) and "" in inner and matched(body):
                stack[-1].append(body)
            else:
                stack[-1].append("".join(inner))
        elif re.fullmatch(r"\.[^\s.]+", p) and stack[-1] and "".join(stack[-1][-1:]).isspace():
            level = stack[-1]
            level.pop()
            i = len(level)
            while i > 0 and level[i - 1] not in BREAK and not (level[i - 1] == "(" and i == 1) and level[i - 1] != "":
                if level[i - 1].endswith(".") and len(level[i - 1]) > 1:
                    break                  # the dot behind a λ's variable
                i -= 1
            while i < len(level) and level[i].isspace():
                i += 1
            spine = "".join(level[i:])
            del level[i:]
            level.append(("(" + spine + ")" if re.search(r"\s", spine) and not lone(spine) else spine) + p)
            level.insert(i, "")
        else:
            stack[-1].append(p)
    return "".join("".join(level) for level in stack)


def matched(body):
    """Whether the bracket that begins a text is closed right before its last fields."""
    depth = 0
    for i, ch in enumerate(body):
        depth += (ch == "(") - (ch == ")")
        if depth == 0:
            return re.fullmatch(r"(\.[\w']+)+", body[i + 1:]) is not None
    return False


def lone(spine):
    """Whether a text is one bracket with fields behind it."""
    return spine.startswith("(") and (matched(spine) or matched(spine + ".x"))


def turned(text, path):
    """A text of an old file in today's spelling."""
    if path.endswith(".rt"):
        for a, b in CRATES.items():
            text = re.sub(r"\b%s::" % a, b + "::", text)
        return text
    parts = re.split(r"(\"(?:[^\"\\]|\\.)*\")", text)
    for i in range(0, len(parts), 2):
        s = re.sub(r"Rattle·(\w+)\.", lambda m: "Rattle.%s." % CRATES.get(m.group(1), m.group(1)), parts[i])
        parts[i] = NAME.sub(lambda m: name(m.group(0), path), s)
    return tight("".join(parts))


# ---- edits

def once(text, part):
    return text.count(part) == 1


def turn_pair(old, new, before, path):
    """Today's pair for a pair of the old file, or a complaint."""
    today = read(path)
    lines = [l for l in before.split("\n") if old in l]
    if len(lines) != 1:
        return None, "old text in %d lines" % len(lines)
    line = lines[0]
    a, b = turned(line, path), turned(line.replace(old, new, 1), path)
    if today.split("\n").count(a) != 1:
        return None, "line turns to: %s" % a
    x, y = turned(old, path), turned(new, path)
    if once(today, x) and a.replace(x, y, 1) == b and x != y:
        return (x, y), ""
    if once(today, a.strip()):
        return (a.strip(), b.strip()), ""
    return None, "line stands again"


def turn(old_root):
    left = 0
    for source in sorted(glob.glob(old_root + "/crates/*/must-fail/*.edit")):
        crate, base = source.split("/")[-3], os.path.basename(source)
        home = CRATES.get(crate, crate)
        edit = parse(read(source))
        for path, i, j in list(pairs(edit)):
            here, there = "crates/%s/%s" % (home, path), "%s/crates/%s/%s" % (old_root, crate, path)
            key = (crate, base[:-5], edit[i][1])
            if key in HAND:
                pair = HAND[key]
            else:
                try:
                    pair, why = turn_pair(edit[i][1], edit[j][1], read(there), here)
                except LookupError as e:
                    pair, why = None, str(e)
                if not pair:
                    left += 1
                    print("%s/%s: %s\n    old: %s\n    new: %s" % (crate, base, why, edit[i][1], edit[j][1]))
                    continue
            edit[i][1], edit[j][1] = pair
        out = "\n".join(kind + ": " + text if kind else text for kind, text in edit)
        for a, b in SAID:
            out = out.replace(a, b)
        with open("crates/%s/must-fail/%s" % (home, base), "w", encoding="utf-8") as f:
            f.write(out)
    print("%d pairs left" % left)
    return left


def check():
    bad = count = 0
    for source in sorted(glob.glob("crates/*/must-fail/*.edit")):
        crate, base = source.split("/")[1], os.path.basename(source)
        edit, state, said = parse(read(source)), {}, []
        found = list(pairs(edit))
        if not found or len(found) * 2 != sum(kind in ("old", "new") for kind, _ in edit):
            said.append("pairs")
        for path, i, j in found:
            full = "crates/%s/%s" % (crate, path)
            if not os.path.exists(full):
                said.append("no file " + path)
                continue
            old, new = edit[i][1], edit[j][1]
            text = state.setdefault(path, read(full))
            if old == new:
                said.append("no change: " + old)
            if not once(text, old):
                said.append("stands %d times: %s" % (text.count(old), old))
            state[path] = text.replace(old, new, 1)
        for path, i, j in found:
            # A name of the new text is one that the file has, or that a pair takes into it, or a field, or in a path.
            rest = state.get(path, "").replace(edit[j][1], "") + " " + edit[i][1]
            new = edit[j][1] if not edit[j][1].startswith("use ") else ""
            fresh = {w for w in WORD.findall(re.sub(r'"[^"]*"', "", new)) if not re.search(r"(?<!\w)%s(?!\w)" % re.escape(w), rest)}
            fields = {w for w in fresh if re.search(r"[.:]%s\b" % re.escape(w), new) and w in words_everywhere()}
            said += ["a name that is not in the file: " + w for w in sorted(fresh - fields - bound(new) - KEYWORDS)]
        count += 1
        if said:
            bad += 1
            print("%s/%s: %s" % (crate, base, "; ".join(said)))
    print("%d edits, %d bad" % (count, bad))
    return bad


if __name__ == "__main__":
    if sys.argv[1:] == ["--check"]:
        sys.exit(1 if check() else 0)
    elif len(sys.argv) == 2:
        sys.exit(1 if turn(sys.argv[1]) else 0)
    else:
        sys.exit(__doc__)
