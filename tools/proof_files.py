#!/usr/bin/env python3
"""Turns proof files of the older form into today's.

usage: rt check --generated NAMES --old-names        in the crate's folder: what Rattle names now and named before
       tools/proof_files.py CRATE-FOLDER NAMES/names.json [FUNCTION..]

proofs/F/Proof.antt closed its goals by position, `tie.close (tie.spec ..)`, over records that were reached by `.before`. It becomes
proofs/F/Invariants.antt (invariants and measures, functions of the record `l`) and proofs/F/Answers.antt (goals by name, without those that
`search rules` proves). A line for each function says `ok`, or where the goals of the file and today's differ in number and were matched by
kind. What the older check called by a number (`new.1.1.0`) or by `Lts` and `Reads` is left as it stands, for a reader to mend.
"""
import functools
import json
import os
import re
import sys

SEP = r"\s(){}\[\],;«»\"."
IDENT = re.compile(r"[^%s]+" % SEP)
SEARCH = re.compile(r"λ c( κs)?\. search (rules|needs)$")


def arguments(text):
    """The top-level arguments of an application."""
    out, i = [], 0
    while i < len(text):
        if text[i].isspace():
            i += 1
            continue
        j, depth = i, 0
        while j < len(text) and (depth or not text[j].isspace()):
            depth += (text[j] == "(") - (text[j] == ")")
            j += 1
        out.append(text[i:j])
        i = j
    return out


def bare(text):
    text = text.strip()
    return text[1:-1].strip() if text.startswith("(") and text.endswith(")") else text


def declarations(text):
    """The top-level declarations: (name or None, text with the comment above)."""
    head = re.compile(r"(?:(?:abbrev|pub|unfoldable|data|record|module)\s+)*[^\s:(){}]+ :(?:\s|$)|(?:abbrev |pub |unfoldable )*(?:data|record|module) ")
    blocks, block = [], []
    for line in text.split("\n"):
        starts = line and not line[0].isspace() and (line.startswith("--") or head.match(line))
        if starts and not all(l.startswith("--") or not l.strip() for l in block):
            blocks.append(block)
            block = []
        block.append(line)
    out = []
    for b in [*blocks, block]:
        names = [re.match(r"(?:(?:abbrev|pub|unfoldable)\s+)*([^\s:(){}]+) : ?", l) for l in b if not l.startswith("--")]
        out.append((next((m[1] for m in names if m), None), "\n".join(b).strip("\n")))
    return out


def steps_of(names):
    """What a step of the code was called: its name now, and what its facts are called now."""
    steps = {}
    for place in names["places"]:
        old, new = place[2]
        if old:
            facts = dict(steps.get(old, (new, {}))[1])
            facts.update({a: b for a, b in place[4]})
            steps[old] = (new, facts)
    for (old, new), _ in names["loops"]:
        steps.setdefault(old, (new, {}))
    return steps


def arms_of(names):
    """The facts of a match's arms: the path that they had, and the one that they have, longest first."""
    found = {(".".join([old, *path]), f"{arm[0]}.{new}") for arm in names["arms"] if arm for new, old, path in arm[2] if old != "match"}
    return sorted(found, key=lambda it: -len(it[0]))


def term(text, steps, arms):
    """A proof's term, with today's names of steps and facts."""
    context = {"c"}
    for name, source in re.findall(r"let ([\w']+) = ([\w']+)(?:\.before)* in", text):
        if source in context:
            context.add(name)
    any_of = "|".join(sorted(map(re.escape, context), key=len, reverse=True))
    at = rf"(?<![\w.'-])(?:{any_of})(?:\.before)*"
    for m in list(re.finditer(rf"let ([\w']+) = ({at})\.([\w'-]+) in[ \n]", text)):
        name, source, step = m[1], m[2].split(".")[0], m[3]
        if step not in {a.split(".")[0] for a, _ in arms}:
            continue
        turned = text.replace(m[0], "\n" if m[0].endswith("\n") else "", 1)
        for a, b in arms:
            if a.startswith(step + "."):
                turned = re.sub(rf"(?<![\w.'-]){re.escape(name)}\.{re.escape(a[len(step) + 1:])}(?![\w'-])", f"{source}.{b}", turned)
        if not re.search(rf"(?<![\w.'-]){re.escape(name)}\b", turned):
            text = turned
    text = re.sub(r"\n\s*\n(\s+)", r"\n\1", text)
    for a, b in arms:
        text = re.sub(rf"({at})\.{re.escape(a)}(?![\w'-])", lambda m: f"{m[1]}.{b}", text)

    def step_now(m):
        if m[2] not in steps:
            return m[0]
        new, facts = steps[m[2]]
        fact = m[3] or ""
        return f"{m[1]}.{new}" + (f".{facts[fact[1:]]}" if fact[1:] in facts else fact)

    text = re.sub(rf"({at})\.([A-Za-z_][\w'-]*?)(?=[{SEP}]|$)(\.[A-Za-z_][\w-]*)?", step_now, text)
    for name, step in re.findall(rf"let ([\w']+) = (?:{any_of})(?:\.before)*\.([\w'-]+) in", text):
        for new, facts in steps.values():
            for a, b in facts.items() if new == step else ():
                text = re.sub(rf"(?<![\w.'-]){re.escape(name)}\.{a}(?![\w-])", f"{name}.{b}", text)
    text = re.sub(rf"(?<![\w.'-])({any_of})(?:\.before)+(?![\w-])", r"\1", text)
    return without_names_of_context(re.sub(r"(?<![\w.])tie\.", "goal.", text))


def without_names_of_context(text):
    """A proof's term without `let x = c in`, which named the context at a step."""
    while m := re.search(r"let ([A-Za-z_][\w']*) = c in( *\n\s*| )", text):
        rest = text[m.end() :]
        if re.search(rf"λ \(?{re.escape(m[1])}[ .:]|let {re.escape(m[1])} =", rest):
            break
        text = text[: m.start()] + re.sub(rf"(?<![\w.'-]){re.escape(m[1])}(?![\w'-])", "c", rest)
    return text


def with_record(body, variables):
    """An invariant's body with l.v for each variable v; a binder of such a name gets another."""
    at = 0
    while m := re.compile(r"λ \(?([^\s():.,]+)(?: :|\.)").search(body, at):
        at = m.end()
        if m[1] not in variables:
            continue
        depth, end = 0, m.start()
        while end < len(body) and depth >= 0:
            depth += (body[end] in "([{") - (body[end] in ")]}")
            end += depth >= 0
        fresh = {"i": "k", "k": "j", "a": "x", "b": "y", "n": "m", "q": "z"}.get(m[1], m[1] + "'")
        keep = lambda q: fresh if q[0] == m[1] and body[m.start() + q.start() - 1] != "." else q[0]
        body = body[: m.start()] + IDENT.sub(keep, body[m.start() : end]) + body[end:]

    def one(m):
        is_field = m.start() > 0 and body[m.start() - 1] == "." or re.match(r" = ", body[m.end() :])
        return m[0] if is_field else variables.get(m[0], m[0])

    return IDENT.sub(one, body)


def matched(goals, needs, declared):
    """Pairs of goals and needs, in order, where their numbers differ: by kind, and a goal of `search` may fall out."""

    def kind(goal):
        it = bare(goal)
        if it in declared:
            q = re.search(r"tie\.Need-([\w'-]+)", declared[it])
            name = q[1] if q else it
            lent = re.search(rf"^{re.escape(it)} c κs", declared[it], re.M)
            return ("returns" if name.startswith("returns") else "requires" if lent else "other"), False, name
        return ("requires" if it.startswith("λ c κs") else "any"), bool(SEARCH.match(it)), None

    def cost(goal, need):
        k, _, name = kind(goal)
        returns, requires = re.match(r"returns(-\d+)?$", need[0]), re.search(r"-requires(-\d+)?$", need[0])
        if k == "returns" and not returns or k in ("requires", "other") and returns:
            return None
        plain = lambda s: re.sub(r"-\d+$", "", s)
        return (2 if name is not None and plain(name) != plain(need[0]) else 0) + ((k == "requires") != bool(requires))

    @functools.lru_cache(None)
    def best(i, j):
        if i == len(goals) and j == len(needs):
            return 0, ()
        found = []
        if i < len(goals) and j < len(needs) and (c := cost(goals[i], needs[j])) is not None:
            rest = best(i + 1, j + 1)
            found.append((rest[0] + c, ((i, j), *rest[1])))
        if i < len(goals):
            rest = best(i + 1, j)
            found.append((rest[0] + (3 if kind(goals[i])[1] else 30), rest[1]))
        if j < len(needs):
            rest = best(i, j + 1)
            found.append((rest[0] + 3, rest[1]))
        return min(found)

    return [(goals[i], needs[j]) for i, j in best(0, 0)[1]]


def comment_and_code(text):
    lines = text.split("\n")
    comment = "".join(l + "\n" for l in lines if l.startswith("--"))
    return comment, [l for l in lines if not l.startswith("--")]


def invariants(names, declared, used, said):
    out = []
    for at, ((old, new), variables) in enumerate(names["loops"]):
        changed = names["changed"][at] if at < len(names["changed"]) else [False] * len(variables)
        for kind in ("invariant", "decreases"):
            name = f"{kind}-{old}"
            if name not in declared:
                continue
            used.add(name)
            comment, code = comment_and_code(declared[name])
            m = re.search(rf"^{re.escape(name)} ((?:[^\n=]|\n(?= ))*?)=(.*)$", "\n".join(code), re.S | re.M)
            params = m[1].split()
            if len(params) != len(variables) + sum(changed):
                said.append(f"{name} has {len(params)} parameters, and the loop has {variables}, changed {changed}")
            now = {p: f"l.initial.{v}" if c else f"l.{v}" for p, v, c in zip(params, variables, changed)}
            now |= {p: f"l.{v}" for p, v in zip(params[len(variables) :], [v for v, c in zip(variables, changed) if c])}
            unfolding = "".join(l + "\n" for l in "\n".join(code)[: m.start()].split("\n") if l.startswith("unfolding"))
            out.append(f"{comment}abbrev pub {kind}-{new} : goal.{kind}-{new}\n{unfolding}{kind}-{new} l ={with_record(m[2], now)}")
    return out


def answer(goal, new, declared, used, unfolding, turn):
    """The answer to a goal, or None where search finds it."""
    it = bare(goal)
    if SEARCH.match(it) and not unfolding:
        return None
    if it not in declared:
        m = re.match(r"λ c( κs)?\.(.*)$", it, re.S)
        return f"pub {new} : goal.{new}\n{unfolding}{new} c ={turn(m[2])}" if m else f"pub {new} : goal.{new}\n{new} = {turn(it)}"
    used.add(it)
    comment, code = comment_and_code(declared[it])
    name = re.compile(rf"{re.escape(it)}(\s|$)")
    starts = [i for i, l in enumerate(code) if name.match(l)]
    own = "".join(l + "\n" for l in code[starts[0] : starts[1]] if l.startswith("unfolding"))
    body = "\n".join(code[starts[1] :])
    body = re.sub(rf"^{re.escape(it)} c( κs)?(?= |\n)", f"{new} c", body, flags=re.M)
    body = turn(re.sub(rf"^{re.escape(it)}(?=[\s])", new, body, flags=re.M)).strip("\n")
    if re.search(r"=\s*search rules\s*$", body) and not own and "\n" not in body:
        return None
    return f"{comment}pub {new} : goal.{new}\n{own}{body}"


def turned(crate, function, text, names):
    """The two files of a function, and what there is to say."""
    uses = [l for l in text.split("\n") if l.startswith("use ")]
    all_of = declarations("\n".join(l for l in text.split("\n") if not l.startswith("use ")))
    declared = {n: t for n, t in all_of if n}
    spec = next((t for n, t in all_of if n and n.endswith("_spec") and "tie.close" in t), None)
    if spec is None:
        return None, None, ["no tie.close"]
    used = {n for n, t in all_of if t is spec or t == spec}
    m = re.search(r"tie\.close\s*\(tie\.spec(.*)\)\s*$", spec, re.S)
    given = arguments(m[1]) if m else []
    while given and re.match(r"(invariant|decreases)-", given[0]):
        given.pop(0)
    said, steps, arms = [], steps_of(names), arms_of(names)
    unfolding = "".join(l + "\n" for l in spec.split("\n") if l.startswith("unfolding "))
    first = invariants(names, declared, used, said)
    needs = [tuple(n) for n in names["needs"]]
    pairs = list(zip(given, needs))
    if len(given) != len(needs):
        said.append(f"{len(given)} goals for {len(needs)}")
        pairs = matched(tuple(given), tuple(needs), declared)
    turn = lambda t: term(t, steps, arms)
    second = [a for goal, (_, new) in pairs if (a := answer(goal, new, declared, used, unfolding, turn))]
    helpers = [turn(t) for n, t in all_of if n not in used and t.strip()]

    def file(kind, parts):
        kept = [u for u in uses if not re.search(r"\.Statement\.\{statement\}| as tie$|\.Tie( |$|\.)", u)]
        path = f"Rattle.{crate}.proofs.{function.replace('/', '.')}.{kind}"
        return "\n".join([*kept, f"use {path} as goal", "", "\n\n".join(parts), ""]) if parts else None

    return file("Given", first), file("Goals", helpers + second), said


def main(folder, names_file, only):
    with open(names_file, encoding="utf-8") as it:
        names = json.load(it)
    crate = os.path.basename(os.path.abspath(folder))
    for root, _, files in os.walk(os.path.join(folder, "proofs")):
        if "Proof.antt" not in files:
            continue
        function = os.path.relpath(root, os.path.join(folder, "proofs"))
        key = f"Rattle-{crate}-proofs.{function.replace('/', '.')}.Lts"
        if only and function not in only:
            continue
        if key not in names:
            print(f"{function}: no names")
            continue
        with open(f"{root}/Proof.antt", encoding="utf-8") as it:
            first, second, said = turned(crate, function, it.read(), names[key])
        if first is None and second is None and said:
            print(f"{function}: {'; '.join(said)}")
            continue
        os.remove(f"{root}/Proof.antt")
        for name, text in (("Invariants", first), ("Answers", second)):
            if text:
                with open(f"{root}/{name}.antt", "w", encoding="utf-8") as it:
                    it.write(text)
        if not os.listdir(root):
            os.rmdir(root)
        print(f"{function}: {'; '.join(said) or 'ok'}")


if __name__ == "__main__":
    if len(sys.argv) < 3:
        print(__doc__)
        raise SystemExit(2)
    main(sys.argv[1], sys.argv[2], sys.argv[3:])
