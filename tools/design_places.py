#!/usr/bin/env python3
"""Lists and counts places of the code in an older form, by point and crate (docs/DESIGN-PASS.md).

usage: tools/design_places.py                  a table: a line for each rule, a column for each crate that has a place
       tools/design_places.py --places [RULE]  each place as file:line, the rule, and the line's text (RULE as 3 or 3a)
       tools/design_places.py --facts          of point 5 the facts and the groups of parameters, with the functions that have them
       .. --at COMMIT                          of that commit, and not of the files as they stand

Comments are not read. A rule goes by the text alone: it also lists what is right as it stands. The lists by name (TWINS, NUMBERS,
BY_HAND) were made by reading, at the commit that the page's first line names. Of TWINS those count of which two or more are there, of
NUMBERS those that answer a number, of BY_HAND the functions whose body is the one that it was at that commit, and types.
"""
import argparse
import collections
import glob
import os
import re
import subprocess

RULES = {
    "1a": "an enum whose variants hold values",
    "1b": "a struct with a flag, or a cause, beside other values",
    "1c": "a constant, field or parameter that is a number for a kind, a cause, a mark or a mode",
    "1d": "a number written out for a kind, a cause or a mark",
    "1e": "a function that answers a number for 'none' or 'refused'",
    "2": "a function or type that has a twin",
    "3a": "`while` or `loop` over an index that is counted by hand",
    "3b": "another `while` or `loop`",
    "4a": "`if` that only returns true or false",
    "4b": "a function or type that stands for what the library or an operator has",
    "5a": "a clause with a fact that stands in the contracts of three or more functions of its crate",
    "5b": "a function with parameters that stand together in three or more functions of its crate",
    "6a": "an array of fixed length with a number beside it, as parameters or fields",
    "6b": "two arrays that run side by side, as parameters",
    "6c": "a local array that is filled up to a count",
    "6d": "a search by halving",
    "7": "a `bool` parameter",
    "8a": "a proof file of a function (lines)",
    "8b": "a file of lemmas below proofs/ (lines)",
}

# Names of values that are numbers for a kind, a cause or a mark.
NUMBER_NAMES = r"(?:(?:kind|cause|found|above|previous|before|last|parent): (?:u8|u32)|(?:low|high|stop): u8|o: usize)"

# Constants that are numbers for lengths, places or limits, by their crates or names.
OTHER_CONSTANTS = ("layout.rt", "MOST_COMMITS")

# Functions that answer a number with a second meaning, by crate: what the number says.
NUMBERS = {
    "engine": {"caller": "0 for no cause", "document_cause": "0 for no cause", "way_up": "0 for a deleted node", "parent": "0 for none",
               "waits": "0 for no wait"},
    "write_steps": {"update_cause": "0 for no cause", "rename_cause": "0 for no cause", "insert_cause": "0 for no cause"},
    "table": {"find": "the count for none", "next_below": "0 for kept", "below_marked": "0 for kept"},
    "ends": {"next_below": "0 for kept", "end_if_kept": "0 for kept", "end_marks": "0 for kept"},
    "xml_measure": {"measure": "0 for not expressible", "previous": "0 for none", "version": "which content"},
    "xml_tokens": {"peek": "0 behind the end"},
    "node_writing": {"rename": "1 for renamed"},
}

# Twins, by what they do: the members as crate::function or crate::Type.
TWINS = [
    ("copies of 16, 8 and 4 bytes", "xml_content::load_16", "xml_content::load_8", "xml_content::load_4"),
    ("pieces by two windows of 16, 8 and 4 bytes", "xml_content::put_16", "xml_content::put_8", "xml_content::put_4"),
    ("copies of bytes", "table::store", "xml_text::put", "table::copy_32"),
    ("the larger of two", "tree::larger", "xml_filling::larger"),
    ("the smaller of two", "tree::smaller", "byte_strings::shorter"),
    ("order of two names", "xml_reader::order", "xml_measure::order"),
    ("place among sorted names", "xml_reader::place", "xml_measure::place"),
    ("a name put among sorted names", "xml_reader::enter", "xml_measure::enter"),
    ("bits of a word", "locks::has", "protocol::has"),
    ("the cells' bytes by a number", "table::kind", "table::writer", "table::inserter", "table::deleter"),
    ("the cells' bytes set by a number", "table::set_kind", "table::clear_writer", "table::set_inserter", "table::set_deleter"),
    ("a content and its window", "table::content_bytes", "table::content_window"),
    ("ends of open nodes", "xml_write::put_ends", "xml_write::put_last_ends"),
    ("lengths of 32 bytes, all and the first n", "xml_content::window_length", "xml_content::first_length"),
    ("runs of bytes of a class", "xml_tokens::blanks", "xml_tokens::name", "xml_tokens::plain_name", "xml_tokens::letters"),
    ("tokens of attributes, judged and filled in", "xml_reader::attribute", "xml_filling::attribute"),
    ("tokens of a start tag, judged and filled in", "xml_reader::attributes", "xml_filling::attributes", "xml_reader::start_tag",
     "xml_filling::start_tag"),
    ("tokens of a child, judged and filled in", "xml_reader::child", "xml_filling::child", "xml_reader::end_tag", "xml_filling::end_tag"),
    ("ways up from a node", "engine::way_up", "counts::committed"),
    ("passes that leave out subtrees", "xml_measure::select", "node_reading::select", "node_writing::rename_rest"),
    ("passes over the children of a node", "node_reading::kth_child", "node_writing::tally_children", "node_writing::new_place"),
    ("numbers in the outline", "form::number", "table::number"),
    ("one of two refusals by a cause", "engine::rejected", "engine::refusal"),
    ("the steps of U and UU and D, but for what they do", "write_steps::update", "write_steps::delete", "write_steps::rename_tree",
     "write_steps::insert"),
    ("the steps that read", "read_steps::child", "read_steps::read", "read_steps::test_tree", "read_steps::read_tree", "engine::test"),
    ("answers with a cause and an offset", "xml_tokens::Read", "xml_tokens::Piece", "xml_reader::Child", "xml_reader::Tag",
     "xml_judging::Judged"),
    ("answers with an offset", "xml_tokens::Reference", "xml_tokens::Equals", "xml_tokens::Markup", "xml_tokens::End", "xml_reader::Prolog"),
    ("the letter of an answer", "examples::letter", "ropecase::letter"),
    ("the number of an answer", "examples::number", "ropecase::number"),
    ("calls that print", "examples::begin", "ropecase::begin"),
    ("calls that print an update", "examples::update", "ropecase::update"),
    ("calls that print a read", "examples::read", "ropecase::read"),
    ("calls that print an abort", "examples::abort", "ropecase::abort"),
    ("exports, once in Rattle and once in C", "panel::*", "panel_c::*"),
]

# Functions, and one type, that stand for what the library or an operator has.
BY_HAND = {
    "tree": {"larger": "max", "smaller": "min", "meets": "any", "all_plain": "all", "allowed": "match", "takes": "match",
             "breadth": "match"},
    "byte_strings": {"Order": "Ordering", "shorter": "min", "agreement": "zip, position", "insert": "copy_within"},
    "locks": {"union": "|", "share": "&", "on_above": "struct update", "bit_below": "u16::from"},
    "protocol": {"code": "From"},
    "deadlock": {"round": "fold"},
    "table": {"join": "from_le_bytes", "word": "from_le_bytes", "set_word": "to_le_bytes", "double_word": "from_le_bytes",
              "set_double_word": "to_le_bytes", "store": "copy_from_slice", "clear": "fill", "copy_32": "copy_within", "find": "position",
              "left_out": "&&"},
    "form": {"begins": "starts_with", "count_met": "sum", "mark_slots": "fold, all", "among_open": "all", "begin": "for_each"},
    "xml_text": {"put": "copy_from_slice", "in_start_tag": "||"},
    "xml_content": {"load_16": "copy_from_slice", "load_8": "copy_from_slice", "load_4": "copy_from_slice", "window_length": "sum",
                    "first_length": "sum"},
    "xml_tokens": {"is_blank": "matches!", "blanks": "position", "name": "position", "plain_name": "position", "letters": "position",
                   "peek": "get"},
    "xml_reader": {"order": "cmp", "place": "binary_search_by"},
    "xml_measure": {"order": "cmp", "place": "binary_search_by"},
    "xml_filling": {"larger": "max"},
    "xml_load": {"any_open": "any"},
    "node_writing": {"both": "&&", "has_content": "=="},
    "engine": {"rejected": "Err", "refusal": "Err"},
    "examples": {"letter": "Display", "number": "Display", "outcome": "Display", "offset": "Display", "value": "From", "byte": "slices",
                 "text": "slices"},
    "ropecase": {"letter": "Display", "number": "Display", "line": "Display"},
}

WRITTEN_OUT = re.compile(r"\b(?:kind|parent|above|previous|cause)(?: as \w+)? (?:==|!=|<|<=|>|>=) \d+\b"
                         r"|\b\w*kind\([^()]*\) (?:==|!=) \d+\b|(?:Refused|Unfit|Rejected|Stopped|Broken|RefusedAt)\(\d+, [^()]*\)"
                         r"|(?:Refused|Rejected|Stopped)\(\d+\)"
                         r"|\b(?:field|set_field|size|content_bytes|copy_content)\((?:\w+, ){2}\d\b"
                         r"|\bcell\(\s*s,\s*layout::word\([^()]*\) as usize,\s*\d+,\s*\d+,\s*\d+")
FUNCTION = re.compile(r"^[ \t]*(?:pub(?:\([^)]*\))? +)?(?:const +)?(?:unsafe +)?(?:extern +\"C\" +)?fn +(\w+)", re.M)
CLAUSE = re.compile(r"\s*(requires|ensures|decreases|ghost \w+|invariant)\b")


class Function:
    def __init__(self, file, line, name):
        self.file, self.line, self.name = file, line, name
        self.parameters, self.result, self.clauses, self.body, self.body_line = [], "", [], "", line


def balanced(text, i):
    """The place behind the bracket that closes the one at i."""
    depth, closing = 0, {"(": ")", "[": "]", "{": "}"}
    while i < len(text):
        if text[i] in closing:
            depth += 1
        elif text[i] in closing.values():
            depth -= 1
            if depth == 0:
                return i + 1
        i += 1
    return i


def split(text, sign):
    """The parts of a text between signs that stand in no brackets."""
    parts, depth, start = [], 0, 0
    for i, c in enumerate(text):
        if c in "([{<" and not (c == "<" and sign != ","):
            depth += 1
        elif c in ")]}" or (c == ">" and sign == "," and text[i - 1] != "-"):
            depth -= 1
        elif c == sign and depth == 0:
            parts.append(text[start:i])
            start = i + 1
    return [" ".join(p.split()) for p in parts + [text[start:]] if p.strip()]


def functions(file, text):
    for m in FUNCTION.finditer(text):
        f = Function(file, text.count("\n", 0, m.start(1)) + 1, m.group(1))
        i = m.end()
        if text[i] == "<":  # type parameters
            depth = 0
            while True:
                depth += (text[i] == "<") - (text[i] == ">" and text[i - 1] != "-")
                i += 1
                if depth == 0:
                    break
        end = balanced(text, i)
        f.parameters = split(text[i + 1:end - 1], ",")
        i = end
        head = re.compile(r"\s*(?:->\s*((?:\[[^\]]*\]|[^{;\[])*?))?(?=\s*(?:requires\b|ensures\b|decreases\b|ghost\b|where\b|\{|;))").match(text, i)
        if head:
            f.result = " ".join((head.group(1) or "").split())
            i = head.end()
        while True:
            clause = CLAUSE.match(text, i)
            if not clause:
                break
            start = text.index("{", clause.end())
            i = balanced(text, start)
            f.clauses.append((clause.group(1), text.count("\n", 0, start) + 1, text[start + 1:i - 1]))
        start = text.find("{", i)
        if start >= 0 and ";" not in text[i:start]:
            f.body = text[start:balanced(text, start)]
            f.body_line = text.count("\n", 0, start) + 1
        yield f


def plain(fact):
    """A fact without its outer brackets, whichever of now, old and new it is said of."""
    while fact.startswith("(") and balanced(fact, 0) == len(fact):
        fact = fact[1:-1].strip()
    return re.sub(r"\.(old|new|entry\.now|exit\.now)\b", ".now", fact)


def facts(f):
    for kind, line, text in f.clauses:
        if kind == "requires":
            for fact in split(text, "×"):
                fact = plain(fact)
                if "×" in fact and "→" not in fact:
                    yield from ((line, plain(p)) for p in split(fact, "×"))
                else:
                    yield line, fact


def groups(members):
    """The largest sets of parameters that three or more functions have, two or more in a set."""
    sets = {f: frozenset(p for p in f.parameters if ":" in p) for f in members}
    found, new = set(), set(sets.values())
    while new:
        found |= new
        new = {a & b for a in new for b in found} - found
    out = {}
    for group in found:
        having = [f for f in members if group <= sets[f]]
        if len(group) > 1 and len(having) > 2:
            out[group] = having
    return out


class Places:
    def __init__(self, at):
        self.at, self.found = at, collections.defaultdict(list)

    def files(self, pattern):
        if self.at is None:
            names = sorted(glob.glob(pattern, recursive=True))
        else:
            out = subprocess.run(["git", "ls-tree", "-r", "--name-only", self.at, "crates"], capture_output=True, text=True, check=True).stdout
            shape = re.compile(re.escape(pattern).replace(r"\*\*/", "(?:.*/)?").replace(r"\*", "[^/]*") + "$")
            names = sorted(n for n in out.split("\n") if shape.match(n))
        for name in names:
            if os.sep + "out" + os.sep not in name:
                yield name, self.read(name)

    def read(self, name):
        if self.at is None:
            with open(name, encoding="utf-8") as file:
                return file.read()
        return subprocess.run(["git", "show", f"{self.at}:{name}"], capture_output=True, text=True, check=True).stdout

    def add(self, rule, file, line, text):
        self.found[rule].append((file.split("/")[1], file, line, text))

    def count(self, rule, crate):
        places = [p for p in self.found[rule] if p[0] == crate]
        if rule in ("8a", "8b"):
            return f"{len(places)} ({sum(int(p[3].split()[0]) for p in places)})" if places else ""
        return str(len(places)) if places else ""


def bare(text):
    return re.sub(r"//[^\n]*", "", text)


def enums_and_structs(places, file, text):
    for m in re.finditer(r"^(?:pub )?(enum|struct) (\w+)[^{;(]*\{", text, re.M):
        body = text[m.end():balanced(text, m.end() - 1) - 1]
        line = text.count("\n", 0, m.start()) + 1
        if m.group(1) == "enum":
            variants = split(body, ",")
            if any(re.search(r"[({]", v) for v in variants):
                uses = "; ".join(re.sub(r"^pub ", "", v) for v in variants)
                places.add("1a", file, line, f"{m.group(2)}: {uses}")
            continue
        fields = [re.sub(r"^pub ", "", x) for x in split(body, ",")]
        if any(re.search(r": bool$|^cause: u8$", x) for x in fields):
            places.add("1b", file, line, f"{m.group(2)}: {'; '.join(fields)}")
        if any(re.search(r": \[.*; .*\]$", x) for x in fields) and any(x.endswith(": usize") for x in fields):
            places.add("6a", file, line, f"{m.group(2)}: {'; '.join(fields)}")
        for x in fields:
            if re.fullmatch(NUMBER_NAMES, x):
                places.add("1c", file, line, f"{m.group(2)}: {x}")


def numbers(places, file, text, members):
    for m in re.finditer(r"^(?:pub )?const (\w+): (u8|u16|u32|usize) = (\d+);", text, re.M):
        line = text.count("\n", 0, m.start()) + 1
        if os.path.basename(file) in OTHER_CONSTANTS or m.group(1) in OTHER_CONSTANTS:
            continue
        places.add("1c", file, line, m.group(0))
    for f in members:
        for p in f.parameters:
            if re.fullmatch(NUMBER_NAMES, p):
                places.add("1c", file, f.line, f"{f.name}: {p}")
    for m in WRITTEN_OUT.finditer(text):
        places.add("1d", file, text.count("\n", 0, m.start()) + 1, " ".join(m.group(0).split()))


def loops(places, f):
    for m in re.finditer(r"\b(while|loop)\b", f.body):
        start = f.body.index("{", m.end())
        condition, body = f.body[m.end():start], f.body[start:balanced(f.body, start)]
        counted = [v for v in re.findall(r"\b(\w+) [+-]= 1;", body) if re.search(rf"\b{v}\b", condition)]
        line = f.body_line + f.body.count("\n", 0, m.start())
        what = f"{f.name}: {m.group(1)}{' ' + condition.strip() if condition.strip() else ''}"
        places.add("3a" if counted else "3b", f.file, line, what)


def comparisons(places, f):
    for m in re.finditer(r"\bif [^{}]*\{\s*return (?:true|false);\s*\}", f.body):
        line = f.body_line + f.body.count("\n", 0, m.start())
        places.add("4a", f.file, line, f"{f.name}: {' '.join(m.group(0).split())}")


def buffers(places, f):
    arrays = [p for p in f.parameters if re.search(r": &(?:mut )?\[\w+; \w+\]$", p)]
    if arrays and any(p.endswith(": usize") for p in f.parameters):
        places.add("6a", f.file, f.line, f"{f.name}: {', '.join(f.parameters)}")
    if len(arrays) > 1:
        places.add("6b", f.file, f.line, f"{f.name}: {', '.join(arrays)}")
    for m in re.finditer(r"let mut (\w+) = \[0(?:u\d+)?; \w+\];", f.body):
        line = f.body_line + f.body.count("\n", 0, m.start())
        places.add("6c", f.file, line, f"{f.name}: {m.group(0)}")
    for m in re.finditer(r"\((\w+) \+ (\w+)\) / 2", f.body):
        places.add("6d", f.file, f.body_line + f.body.count("\n", 0, m.start()), f"{f.name}: {m.group(0)}")
    for p in f.parameters:
        if p.endswith(": bool"):
            places.add("7", f.file, f.line, f"{f.name}: {p}")


def named(places, crate, members, types, before):
    for name, says in NUMBERS.get(crate, {}).items():
        for f in members:
            if f.name == name and re.match(r"u8|u16|u32|usize", f.result):
                places.add("1e", f.file, f.line, f"{name} -> {f.result}: {says}")
    for f in members:
        says = BY_HAND.get(crate, {}).get(f.name)
        if says and " ".join(f.body.split()) in before[crate, f.name]:
            places.add("4b", f.file, f.line, f"{f.name}: {says}")
    for name in set(types) & set(BY_HAND.get(crate, {})):
        places.add("4b", *types[name], f"{name}: {BY_HAND[crate][name]}")


def twins(places, crates, types):
    for _, *names in TWINS:
        having = []
        for owner, name in (n.split("::") for n in names):
            having += [(f.file, f.line, f.name) for f in crates.get(owner, []) if name in (f.name, "*")]
            if name in types[owner]:
                having.append((*types[owner][name], name))
        for file, line, name in having if len(having) > 1 else []:
            places.add("2", file, line, f"{name}: {', '.join(names)}")


def repeated(places, members):
    said = collections.defaultdict(list)
    for f in members:
        for line, fact in facts(f):
            said[fact].append((f, line))
    common = {k: v for k, v in said.items() if len({f for f, _ in v}) > 2}
    for fact, having in common.items():
        for f, line in having:
            places.add("5a", f.file, line, f"{f.name}: {fact}")
    together = groups(members)
    for f in {f for having in together.values() for f in having}:
        largest = max((g for g, having in together.items() if f in having), key=len)
        places.add("5b", f.file, f.line, f"{f.name}: {', '.join(p for p in f.parameters if p in largest)}")
    return common, together


def bodies(at):
    """The bodies of all functions at the commit where the pass began, by crate and name."""
    out = collections.defaultdict(set)
    for file, text in Places(at).files("crates/*/src/**/*.rt"):
        for f in functions(file, bare(text)):
            out[file.split("/")[1], f.name].add(" ".join(f.body.split()))
    return out


def gather(at):
    places, crates, common = Places(at), collections.defaultdict(list), {}
    with open("docs/DESIGN-PASS.md", encoding="utf-8") as page:
        before = bodies(page.readline().strip())
    types = collections.defaultdict(dict)
    for file, text in places.files("crates/*/src/**/*.rt"):
        text, crate = bare(text), file.split("/")[1]
        members = list(functions(file, text))
        crates[crate] += members
        enums_and_structs(places, file, text)
        numbers(places, file, text, members)
        for m in re.finditer(r"^(?:pub )?(?:enum|struct) (\w+)", text, re.M):
            types[crate][m.group(1)] = (file, text.count("\n", 0, m.start()) + 1)
        for f in members:
            loops(places, f)
            comparisons(places, f)
            buffers(places, f)
    for crate, members in crates.items():
        named(places, crate, members, types[crate], before)
        common[crate] = repeated(places, members)
    twins(places, crates, types)
    for file, text in places.files("crates/*/proofs/**/*.antt"):
        of_function = os.path.basename(file) in ("Answers.antt", "Invariants.antt", "Proof.antt") and "/Laws/" not in file
        if os.path.basename(file) != "Lib.antt":
            places.add("8a" if of_function else "8b", file, 1, f"{len(text.splitlines())} lines")
    return places, crates, common


def table(places, crates):
    for rule, says in RULES.items():
        having = [(c, places.count(rule, c)) for c in sorted({p[0] for p in places.found[rule]})]
        total = len(places.found[rule])
        if rule in ("8a", "8b"):
            total = f"{total} ({sum(int(p[3].split()[0]) for p in places.found[rule])})"
        print(f"| {rule} | {says} | {total} | {', '.join(f'{c} {n}' for c, n in having)} |")


def main():
    parser = argparse.ArgumentParser(usage=__doc__)
    parser.add_argument("--places", nargs="?", const="", default=None)
    parser.add_argument("--facts", action="store_true")
    parser.add_argument("--at")
    given = parser.parse_args()
    os.chdir(os.path.join(os.path.dirname(os.path.abspath(__file__)), ".."))
    places, crates, common = gather(given.at)
    if given.facts:
        for crate, (said, together) in sorted(common.items()):
            for fact, having in sorted(said.items(), key=lambda x: -len(x[1])):
                print(f"{crate}: {len(having)} clauses: {fact}: {', '.join(sorted({f.name for f, _ in having}))}")
            for group, having in sorted(together.items(), key=lambda x: (-len(x[1]), sorted(x[0]))):
                print(f"{crate}: {len(having)} functions: ({', '.join(sorted(group))}): {', '.join(sorted(f.name for f in having))}")
    elif given.places is not None:
        for rule in RULES:
            if rule.startswith(given.places):
                for _, file, line, text in sorted(places.found[rule], key=lambda p: p[1:3]):
                    print(f"{file}:{line}: {rule}: {text}")
    else:
        table(places, crates)


if __name__ == "__main__":
    main()
