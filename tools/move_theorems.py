#!/usr/bin/env python3
"""Moves theorems from specs/ to proofs/, so that a must-fail edit of a definition is refused by a proof, and is not read as a BAD EDIT.

usage: tools/move_theorems.py           at the top of the repository: moves the files and turns every import; run it once
       tools/move_theorems.py --list    writes what it would move, as docs/PORT.md has it, and changes nothing

MOVES names the files of specs/. Of a file below Laws everything moves to the same place below proofs/, but what a clause of src/, a
definition that stays, or a must-fail edit cites or changes, with all that this cites in turn. Of any other file only theorems move, and
what cites those. A declaration moves word for word, and the others of its file stay word for word; where one that stays was private or
could not be unfolded from outside its file, and a proof that moves needs that, it gets `pub` or `unfoldable`.
"""
import argparse
import glob
import os
import re
import sys

# The modules of specs/ whose theorems move, by crate: "Laws" stands for each module below it.
MOVES = {
    "locks": ("Laws",),
    "protocol": ("Laws", "Refusals"),
    "rows": ("Laws",),
    "serializability": ("Laws",),
    "traces": ("Laws",),
    "xml": ("Laws",),
}

# Theorems that go into a file of their own, since they cite one that a must-fail edit changes in the file where they stood: by the old
# module the new one, its comment, and the names.
APART = {
    "Rattle.serializability.specs.Laws.Rings": ("Laws.RingTest", "-- The test for a ring of transactions finds just the rings.", ("ring_test",)),
}

# Pages that name files as they stand now.
PAGES = ("README.md", "docs/DECISIONS.md", "docs/PANEL.md", "docs/PROOF.md", "docs/STATE.md")

MARKS = r"(?:(?:pattern|unfoldable|abbrev|axiom|pub) )*"
SIGNATURE = re.compile(rf"^({MARKS})([^\s(){{}},;:.\"]+)(?: \{{[^}}]*\}})? :(?= |$)")
DATATYPE = re.compile(r"^((?:pub )?)(data|record) (\S+)")
SECTION = re.compile(r"^module _(?: |$)")
FIXITY = re.compile(r"^infix[lr]? ")
USE = re.compile(r"^((?:unfoldable )?(?:pub )?(?:ghost )?use )([^\s;{]+?)(?:\.\{([^}]*)\})?(?: as ([^\s;]+))?(;?)$")
TOKEN = re.compile(r"\[\]|[^\s(){}\[\],;.]+")
RULE = re.compile(r"^-- .* -{5,}$|^-- -{5,}$")
WIDTH = 140


def read(path):
    with open(path, encoding="utf-8") as it:
        return it.read()


def write(path, text):
    os.makedirs(os.path.dirname(path), exist_ok=True)
    with open(path, "w", encoding="utf-8") as it:
        it.write(text)


def bare(text):
    """The text without comments and quoted text."""
    return re.sub(r'"(?:\\.|[^"\\])*"|(?:^|(?<=\s))--.*', " ", text, flags=re.M)


def words(text):
    """The names that a text may mean: not what stands behind a dot, as a field does."""
    return set(TOKEN.findall(re.sub(r"(?<![\s(\[{,;])\.[^\s(){}\[\],;.]+", " ", bare(text))))


def cites(tokens, name):
    """Whether a text of these words has the name; ◌+◌ is meant by + alone."""
    if name in tokens:
        return True
    parts = [it for it in name.split("◌") if it]
    return "◌" in name and all(it in tokens for it in parts)


class Item:
    """One name of a use line."""

    def __init__(self, text):
        self.text = text
        self.name, _, self.local = text.partition(" as ")
        self.local = self.local or self.name


class Use:
    """A use line: of items of a module, or of a module or an item by its path."""

    def __init__(self, line):
        match = USE.match(line)
        if not match:
            sys.exit(f"cannot read the line: {line}")
        self.line, self.head, self.path, self.end = line, match[1], match[2], match[5]
        self.items = [Item(it.strip()) for it in match[3].split(",") if it.strip()] if match[3] is not None else None
        self.local = match[4] or self.path.split(".")[-1]

    def show(self, path, items):
        """Lines that bring these items from a path, none longer than WIDTH."""
        lines, now = [], []
        for it in items:
            if now and len(f"{self.head}{path}.{{{', '.join(now + [it.text])}}}{self.end}") > WIDTH:
                lines.append(now)
                now = []
            now.append(it.text)
        lines.append(now)
        return [f"{self.head}{path}.{{{', '.join(it)}}}{self.end}" for it in lines]


class Block:
    """A declaration with the comment above it: a signature with its clauses, a type, or a section with declarations of its own."""

    def __init__(self, lines, indent, file):
        self.file, self.indent, self.inner, self.rule = file, indent, [], []
        start = next(i for i, it in enumerate(lines) if it.strip() and not it.strip().startswith("--"))
        self.comment, self.lines = lines[:start], lines[start:]
        # headings of parts of the file are kept apart: each part that has a declaration of theirs repeats them
        heads = [i for i, it in enumerate(self.comment) if RULE.match(it.strip())]
        if heads:
            self.rule, self.comment = self.comment[: heads[-1] + 1], self.comment[heads[-1] + 1 :]
        while self.comment and not self.comment[0].strip():
            self.comment.pop(0)
        while self.lines and not self.lines[-1].strip():
            self.lines.pop()
        at = next(i for i, it in enumerate(self.lines) if not FIXITY.match(it[indent:]))
        first = self.lines[at][indent:]
        self.section = bool(SECTION.match(first))
        self.names, self.marks, self.kind = [], "", "section"
        if self.section:
            head = next(i for i, it in enumerate(self.lines) if it.rstrip().endswith("where")) + 1
            self.head, body = self.lines[:head], self.lines[head:]
            within = next(it for it in body if it.strip())
            self.inner = blocks(body, len(within) - len(within.lstrip()), file)
        elif match := DATATYPE.match(first):
            self.marks, self.kind, self.names = match[1], match[2], [match[3]]
            if self.kind == "data":
                for it in self.lines[1:]:
                    if made := re.match(rf" {{{indent + 2}}}(\S[^:(]*?) :(?= |$)", it):
                        self.names += made[1].split()
        elif match := SIGNATURE.match(first):
            self.marks, self.names = match[1], [match[2]]
            self.kind = "definition" if re.search("abbrev|unfoldable", self.marks) else "theorem"
        else:
            sys.exit(f"{file.path}: cannot read the declaration: {first}")
        self.text = "\n".join(self.lines)
        self.tokens = words(self.text) if not self.section else words("\n".join(self.head))

    def leaves(self, above=()):
        """Each declaration, with the sections that it stands in."""
        if not self.section:
            yield self, above
        for it in self.inner:
            yield from it.leaves((*above, self))

    @property
    def mark_line(self):
        return next(i for i, it in enumerate(self.lines) if SIGNATURE.match(it[self.indent :]) or DATATYPE.match(it[self.indent :]))

    def statement(self):
        """The signature, or the whole of a type."""
        if self.kind in ("data", "record"):
            return [it[self.indent :] for it in self.lines]
        out = []
        for it in self.lines[self.mark_line :]:
            rest = it[self.indent :]
            if out and not rest.startswith("  "):
                break
            out.append(rest)
        return out


def blocks(lines, indent, file):
    """The declarations of some lines at an indentation."""
    starts, out = [], []
    for i, line in enumerate(lines):
        rest = line[indent:]
        if line[:indent].strip() or not rest or rest[0] == " ":
            continue
        if SIGNATURE.match(rest) or DATATYPE.match(rest) or SECTION.match(rest) or FIXITY.match(rest):
            if i and FIXITY.match(lines[i - 1][indent:]):
                continue
            # back over the comment and the empty lines above
            at = i
            while at and (not lines[at - 1].strip() or lines[at - 1].strip().startswith("--")):
                at -= 1
            starts.append(at)
    if lines and any(it.strip() and not it.strip().startswith("--") for it in lines[: starts[0] if starts else None]):
        sys.exit(f"{file.path}: text before the first declaration: {lines[0]}")
    for at, end in zip(starts, [*starts[1:], len(lines)]):
        out.append(Block(lines[at:end], indent, file))
        own = out[-1]
        if not own.section:
            check(own, file)
    return out


def check(block, file):
    """Each line of a declaration at its own indentation is one of its clauses."""
    for line in block.lines[block.mark_line + 1 :]:
        rest = line[block.indent :]
        if rest and rest[0] not in " )}]" and not rest.startswith(("--", "unfolding ", "unfolding\n")):
            if not cites(words(rest), block.names[0]):
                sys.exit(f"{file.path}: the line is no clause of {block.names[0]}: {rest}")


class File:
    """A file of antt: its comment, its use lines, its declarations."""

    def __init__(self, path):
        self.path = path
        _, self.crate, self.root, self.place = path.removesuffix(".antt").split("/", 3)
        self.module = self.place.replace("/", ".")
        lines = read(path).split("\n")
        last = max((i for i, it in enumerate(lines) if USE.match(it)), default=-1)
        first = next((i for i, it in enumerate(lines) if USE.match(it)), 0)
        self.head = lines[:first]
        self.uses = [Use(it) for it in lines[first : last + 1] if it.strip()]
        self.blocks = blocks(lines[last + 1 :], 0, self)
        self.leaves = [it for block in self.blocks for it, _ in block.leaves()]
        self.above = {it: above for block in self.blocks for it, above in block.leaves()}
        self.names = {name: it for it in self.leaves for name in it.names}

    @property
    def name(self):
        return f"Rattle.{self.crate}.{self.root}.{self.module}"

    def under_laws(self):
        return self.module.startswith("Laws.")


class Repository:
    """All crates: what moves of them, and the text of each file afterwards."""

    def __init__(self):
        self.crates = [it.split(":")[0].split()[0] for it in read("crates.txt").split("\n") if it.strip() and it[0] != "#"]
        self.files = {}
        for crate in self.crates:
            for path in sorted(glob.glob(f"crates/{crate}/specs/**/*.antt", recursive=True)):
                if os.path.basename(path) in ("Lib.antt", "Laws.antt"):
                    continue
                file = File(path)
                self.files[file.name] = file
        self.sources = {path: read(path) for crate in self.crates for path in sorted(glob.glob(f"crates/{crate}/src/**/*.rt", recursive=True))}
        self.moving = [it for it in self.files.values() if self.is_moving(it)]
        self.moved, self.marked = set(), {}
        self.plan()

    @staticmethod
    def is_moving(file):
        wanted = MOVES.get(file.crate, ())
        return file.module in wanted or "Laws" in wanted and file.under_laws()

    def cited(self, block, file):
        """The declarations of specs/ that a declaration cites, and those that its sections cite."""
        tokens = set(block.tokens).union(*(it.tokens for it in file.above[block]))
        text = bare(block.text)
        for name, it in file.names.items():
            if it is not block and cites(tokens, name):
                yield it
        for use in file.uses:
            yield from self.through(use, tokens, text)

    def through(self, use, tokens, text):
        """The declarations that some words mean through a use line."""
        there = self.files.get(use.path)
        if use.items is not None and there:
            for item in use.items:
                if cites(tokens, item.local):
                    yield self.named(there, item.name)
        elif there:
            for name in set(re.findall(rf"(?<![^\s(\[{{,;]){re.escape(use.local)}\.([^\s(){{}}\[\],;.]+)", text)):
                if name in there.names:
                    yield there.names[name]

    def named(self, file, name):
        """The declaration of this name, also one that the file passes on."""
        if name in file.names:
            return file.names[name]
        for use in file.uses:
            there = self.files.get(use.path)
            for item in use.items or ():
                if "pub " in use.head and there and item.local == name:
                    return self.named(there, item.name)
        sys.exit(f"{file.path} has no {name}")

    def plan(self):
        stay, todo = set(), []
        for file in self.files.values():
            for it in file.leaves:
                # a theorem of another crate may cite proofs; no file of specs/ may cite those of its own crate
                if file not in self.moving and not file.under_laws() and (it.kind != "theorem" or file.crate in MOVES):
                    todo += self.cited(it, file)
        for text in self.sources.values():
            for line in text.split("\n"):
                if line.lstrip().startswith("ghost use Rattle.") and (match := USE.match(line.strip())):
                    use = Use(match[0])
                    there = self.files.get(use.path)
                    if there and use.items is not None:
                        todo += [self.named(there, it.name) for it in use.items]
                    elif there:
                        todo += there.leaves
        for path in glob.glob("crates/*/must-fail/*.edit"):
            crate, name, old = path.split("/")[1], "", []
            for line in read(path).split("\n"):
                if line.startswith("file: specs/"):
                    name = f"Rattle.{crate}." + line.removeprefix("file: ").removesuffix(".antt").replace("/", ".")
                elif line.startswith("old: ") and name in self.files:
                    for it in self.files[name].leaves:
                        if line.removeprefix("old: ").strip() in it.text and it.kind != "theorem":
                            todo.append(it)
        self.all_cited(todo, stay)
        self.fill(stay)
        for file in self.moving:
            if file.under_laws():
                self.moved |= set(file.leaves) - stay
            else:
                # theorems, and what cites them
                away = {it for it in file.leaves if it.kind == "theorem"}
                grown = True
                while grown:
                    more = {it for it in file.leaves if it not in away and away & set(self.cited(it, file))}
                    away, grown = away | more, bool(more)
                self.moved |= away - stay
        for file in self.files.values():
            for it in file.leaves:
                self.need_marks(it, file)
        for file in self.files.values():
            if file.crate in MOVES:
                for it in set(file.leaves) - self.moved:
                    for other in self.cited(it, file):
                        if other in self.moved and other.file.crate == file.crate:
                            sys.exit(f"{file.path}: {it.names[0]} stays and cites {other.names[0]} of {other.file.path}, which moves")

    def all_cited(self, todo, stay):
        """Adds some declarations to those that stay, and all that they cite."""
        while todo:
            it = todo.pop()
            if it not in stay and not (it.file in self.moving and not it.file.under_laws() and it.kind == "theorem"):
                stay.add(it)
                todo += self.cited(it, it.file)

    def fill(self, stay):
        """Where a file has definitions that stay, its other public ones stay too, if what they cite does."""
        files = [it for it in self.moving if it.under_laws() and stay & set(it.leaves)]
        grown = True
        while grown:
            grown = False
            for file in files:
                for it in file.leaves:
                    if it not in stay and it.kind != "theorem" and "pub" in it.marks and not file.above[it]:
                        if all(other in stay or other.file not in self.moving for other in self.cited(it, file)):
                            stay.add(it)
                            grown = True

    def home(self, block):
        """The module where a declaration stands afterwards."""
        file = block.file
        if block not in self.moved:
            return file.name
        apart = APART.get(file.name)
        if apart and block.names[0] in apart[2]:
            return f"Rattle.{file.crate}.proofs.{apart[0]}"
        return file.name.replace(".specs.", ".proofs.", 1)

    def homes(self, file):
        """The modules that a file's declarations go to, in order."""
        return list(dict.fromkeys(self.home(it) for it in file.leaves))

    @staticmethod
    def path_of(module):
        _, crate, place = module.split(".", 2)
        return f"crates/{crate}/{place.replace('.', '/')}.antt"

    def need_marks(self, block, file):
        """What a declaration cites of its old file and no longer stands in its file must be public, and what it unfolds must be open to that."""
        opened = set()
        for match in re.finditer(r"\bunfold(?:ing)? ([^\n]*(?:\n[^\n=]*$)*)", bare(block.text), re.M):
            opened |= set(TOKEN.findall(match[1]))
        for name, it in file.names.items():
            if self.home(it) == self.home(block) or not cites(block.tokens | opened, name):
                continue
            if set(file.above[it]) & set(file.above[block]):
                sys.exit(f"{file.path}: {block.names[0]} and {name} part, and stand in one section")
            want = self.marked.get(it, set())
            if "pub" not in it.marks:
                want.add("pub")
            if it.kind == "theorem" and cites(opened, name):
                want.add("unfoldable")
            if want:
                self.marked[it] = want

    # the new text ---------------------------------------------------------------------------------------------

    def part(self, file, keep):
        """The declarations of a file that a test keeps, as lines."""
        out, waiting = [], []

        def put(lines):
            if out and out[-1].strip() and not out[-1].rstrip().endswith("where"):
                out.append("")
            out.extend(lines)

        def go(block):
            if block.rule:
                depth = next(len(it) - len(it.lstrip()) for it in block.rule if it.strip())
                waiting[:] = [it for it in waiting if it[0] < depth] + [(depth, [it for it in block.rule if it.strip()])]
            if block.section:
                if any(keep(it) for it, _ in block.leaves()):
                    flush()
                    put([*block.comment, *block.head])
                    for it in block.inner:
                        go(it)
            elif keep(block):
                flush()
                put([*block.comment, *self.with_marks(block)])

        def flush():
            for _, lines in waiting:
                put([*lines, ""])
            waiting.clear()

        for block in file.blocks:
            go(block)
        return out

    def with_marks(self, block):
        want = self.marked.get(block)
        if not want:
            return block.lines
        at = block.mark_line
        line, pad = block.lines[at][block.indent :], " " * block.indent
        marks = block.marks.split()
        rest = line[len(block.marks) :]
        new = [it for it in ("pattern", "unfoldable", "abbrev") if it in marks or it in want] + ["pub"]
        return [*block.lines[:at], f"{pad}{' '.join(new)} {rest}", *block.lines[at + 1 :]]

    def split(self, use, tokens=None):
        """A use line turned to where its names now are. With words, only what is among them."""
        there = self.files.get(use.path)
        if use.items is None:
            if tokens is not None and use.local not in tokens:
                return []
            if there and len(self.homes(there)) == 1:
                return [use.line.replace(use.path, self.homes(there)[0])]
            return [use.line]
        by_home = {use.path: []}
        for item in use.items:
            if tokens is None or cites(tokens, item.local):
                block = there and there.names.get(item.name)
                by_home.setdefault(self.home(block) if block else use.path, []).append(item)
        if len(by_home[use.path]) == len(use.items):
            return [use.line]
        return [line for path, items in by_home.items() if items for line in use.show(path, items)]

    def all_tokens(self, file, lines):
        text = "\n".join(lines)
        found = words(text)
        # a module's name stands in front of a dot
        found |= set(re.findall(r"(?<![^\s(\[{,;])([^\s(){}\[\],;.]+)\.(?=\S)", bare(text)))
        return found

    def qualified(self, file, lines):
        """The lines with names behind a module's alias led to where they now are, and the lines that bring those modules."""
        text, extra = "\n".join(lines), []
        for use in file.uses:
            there = self.files.get(use.path)
            if use.items is not None or not there or len(self.homes(there)) == 1:
                continue
            found = set(re.findall(rf"(?<![^\s(\[{{,;]){re.escape(use.local)}\.([^\s(){{}}\[\],;.]+)", bare(text)))
            for i, home in enumerate(it for it in self.homes(there) if it != there.name):
                gone = sorted(name for name in found if name in there.names and self.home(there.names[name]) == home)
                new = f"{use.local}_proofs{i or ''}"
                for name in gone:
                    text = re.sub(rf"(?<![^\s(\[{{,;]){re.escape(use.local)}\.{re.escape(name)}(?![^\s(){{}}\[\],;.])", f"{new}.{name}", text)
                if gone:
                    extra.append(f"use {home} as {new}")
        return text.split("\n"), extra

    def texts(self):
        """The new text of each file that changes; None for one that goes."""
        out = {}
        for file in self.files.values():
            homes = self.homes(file)
            if homes in ([], [file.name]):
                lines, extra = self.qualified(file, read(file.path).split("\n"))
                new = []
                for line in lines:
                    if extra and not USE.match(line) and new and USE.match(new[-1]):
                        new += extra
                        extra = []
                    new += self.split(Use(line)) if USE.match(line) else [line]
                if new != read(file.path).split("\n"):
                    out[file.path] = "\n".join(new)
                continue
            if file.name not in homes:
                out[file.path] = None
            for home in homes:
                lines, extra = self.qualified(file, self.part(file, lambda it, home=home: self.home(it) == home))
                tokens = self.all_tokens(file, lines)
                uses = [new for use in file.uses for new in self.split(use, tokens if len(homes) > 1 else None)] + extra
                for other in homes:
                    own = [Item(name) for name, it in file.names.items() if self.home(it) == other != home and cites(tokens, name)]
                    if own:
                        uses += Use(f"use {other}.{{}}").show(other, own)
                apart = APART.get(file.name)
                head = [apart[1]] if apart and home.endswith(f".proofs.{apart[0]}") else file.head
                out[self.path_of(home)] = "\n".join([*head, *uses, "", *lines]).rstrip("\n") + "\n"
        for crate in self.crates:
            for path in sorted(glob.glob(f"crates/{crate}/proofs/**/*.antt", recursive=True)):
                text = read(path)
                new = [it for line in text.split("\n") for it in (self.split(Use(line)) if USE.match(line) else [line])]
                if "\n".join(new) != text:
                    out[path] = "\n".join(new)
        self.lists(out)
        self.edits(out)
        self.pages(out)
        return out

    def lists(self, out):
        """The files that name others by `pub mod`."""
        for crate in MOVES:
            files = {it.module: self.homes(it) for it in self.moving if it.crate == crate and self.moved & set(it.leaves)}
            for prefix in ("Laws.", ""):
                path = f"crates/{crate}/specs/{'Laws' if prefix else 'Lib'}.antt"
                if not files or not os.path.exists(path):
                    continue
                left, new = [], []
                for line in read(path).rstrip("\n").split("\n"):
                    name = prefix + line.split()[-1] if re.match(r"(?:pub )?mod ", line) else ""
                    homes = files.get(name, ())
                    if not homes or any(".specs." in it for it in homes):
                        left.append(line)
                    new += [f"pub mod {it.split('.')[-1]}" for it in homes if ".proofs." in it]
                if not prefix and f"crates/{crate}/proofs/Laws.antt" in out:
                    new.append("pub mod Laws")
                    if out.get(f"crates/{crate}/specs/Laws.antt", "") is None:
                        left.remove("pub mod Laws")
                out[path] = "\n".join(left) + "\n" if left else None
                if new:
                    there = f"crates/{crate}/proofs/{'Laws' if prefix else 'Lib'}.antt"
                    old = read(there).rstrip("\n").split("\n") if os.path.exists(there) else []
                    out[there] = "\n".join([*old, *(it for it in new if it not in old)]) + "\n"

    def edits(self, out):
        """Edits of what moves name the new file."""
        for path in sorted(glob.glob("crates/*/must-fail/*.edit")):
            crate, lines, at = path.split("/")[1], read(path).split("\n"), None
            for i, line in enumerate(lines):
                if line.startswith("file: "):
                    at = i
                elif line.startswith("old: ") and at is not None:
                    file = self.files.get(f"Rattle.{crate}." + lines[at].removeprefix("file: ").removesuffix(".antt").replace("/", "."))
                    homes = {self.home(it) for it in file.leaves if line.removeprefix("old: ").strip() in it.text} if file else ()
                    if len(homes) == 1 and homes != {file.name}:
                        lines[at] = f"file: {self.path_of(*homes).split('/', 2)[2]}"
            if "\n".join(lines) != read(path):
                out[path] = "\n".join(lines)

    def pages(self, out):
        """Comments and pages that name a file which moves as a whole."""
        whole = {}
        for it in self.moving:
            if len(self.homes(it)) == 1 and it.name not in self.homes(it):
                whole[f"{it.crate}/specs/{it.place}"] = f"{it.crate}/proofs/{it.place}"
        named = re.compile(r"\b\w+/specs/Laws/\w+")
        for path in [*PAGES, *self.sources, *(it.path for it in self.files.values()), *list(out)]:
            text = out[path] if path in out else read(path) if os.path.exists(path) else None
            if text is not None:
                new = named.sub(lambda it: whole.get(it[0], it[0]), text)
                if new != text:
                    out[path] = new

    # what is said ---------------------------------------------------------------------------------------------

    def told(self):
        """What moves, for docs/PORT.md."""
        out = []
        for crate in self.crates:
            files = [it for it in self.moving if it.crate == crate and self.moved & set(it.leaves)]
            if not files:
                continue
            moved = [leaf for it in files for leaf in it.leaves if leaf in self.moved]
            theorems = sum(it.kind == "theorem" for it in moved)
            rest = len(moved) - theorems
            out += [f"## {crate}", "", f"{theorems} theorems of {len(files)} files, and {rest} definition{'s' * (rest != 1)} that only theorems cite."]
            split = [it for it in files if it.name in self.homes(it)]
            if split:
                out += ["", "Split, since a clause, a definition that stays or a must-fail edit cites some of their definitions:", ""]
                for it in split:
                    names = ", ".join(f"`{leaf.names[0]}`" for leaf in it.leaves if leaf not in self.moved)
                    out.append(f"- {it.path.split('/', 2)[2]}: there stay {names}")
            marks = [(leaf, want) for leaf, want in self.marked.items() if leaf.file.crate == crate]
            if marks:
                out += ["", "Marks that declarations got, since what cites them stands in another file now:", ""]
                for leaf, want in marks:
                    out.append(f"- `{leaf.names[0]}` ({leaf.file.path.split('/', 2)[2]}): {', '.join(f'`{it}`' for it in sorted(want))}")
            for file in files:
                for home in self.homes(file):
                    if home != file.name:
                        out += ["", f"### {file.path.removeprefix('crates/')} → {self.path_of(home).removeprefix('crates/')}", "", "```antt"]
                        out += [*self.statements(file, home), "```"]
            out.append("")
        return "\n".join(out)

    def statements(self, file, home):
        """The statements that go from a file to another, under the heads of their sections."""
        out, shown = [], ()
        for leaf in file.leaves:
            if self.home(leaf) == home:
                above = file.above[leaf]
                for i, it in enumerate(above):
                    if shown[i : i + 1] != (it,):
                        out += it.head
                        shown = ()
                shown = above
                out += [" " * leaf.indent + it for it in leaf.statement()]
        return out


def main():
    parser = argparse.ArgumentParser(description=__doc__, formatter_class=argparse.RawDescriptionHelpFormatter)
    parser.add_argument("--list", action="store_true", help="write what would move, and change nothing")
    wanted = parser.parse_args()
    here = Repository()
    if wanted.list:
        print(here.told())
        return
    texts = here.texts()
    for path, text in texts.items():
        if text is None:
            os.remove(path)
            if not os.listdir(os.path.dirname(path)):
                os.rmdir(os.path.dirname(path))
        else:
            write(path, text)
    print(f"{len(here.moved)} declarations moved, {len(texts)} files written or removed")


if __name__ == "__main__":
    main()
