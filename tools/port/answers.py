#!/usr/bin/env python3
"""Turns the proofs of a crate from the older form, one term that walks the code, to Invariants.antt and Answers.antt.

usage: cd crates/NAME; rt check --generated /tmp/names-NAME --old-names; python3 ../../tools/port/answers.py /tmp/names-NAME/names.json [FUNCTION..]

Goes by text: what it leaves is for the check to say. FUNCTION is a folder of proofs/, as reader/Reader/next; none: every one with a Proof.antt.
"""
import json
import os
import re
import sys

ITEM = re.compile(r"^(?:(?:abbrev|unfoldable|pub|private)\s+)*([^\s:(){}]+)\s*:(?!:)(?:\s|$)")


def same(name):
    return name.replace("_", "-")


def clauses():
    """For each function of the repository its names of clauses, in order; a name with two different lists is left out."""
    out = {"requires": {}, "ensures": {}}
    for d, ds, fs in os.walk(".."):
        ds[:] = [x for x in ds if x not in ("out", "proofs", "specs", "must-fail")]
        for f in fs:
            if not f.endswith(".rt"):
                continue
            t = open(os.path.join(d, f), encoding="utf-8").read()
            for m in re.finditer(r"\bfn (\w+)", t):
                rest = t[m.end():]
                nxt = re.search(r"\bfn \w+", rest)
                head = rest[: nxt.start() if nxt else len(rest)]
                for kind in out:
                    names = re.findall(rf"^\s+{kind}\*? (\w+) \{{", head, re.M)
                    if names:
                        old = out[kind].get(m[1])
                        out[kind][m[1]] = names if old in (None, names) else []
    return out


def items(text):
    """The `use` lines and comments at the head, and each item with its lines."""
    lines = text.split("\n")
    head, found, hold, name = [], [], [], None
    for line in lines:
        if line.startswith(("use ", "ghost ")) or (not found and line.startswith("--")):
            head.append(line)
            continue
        m = ITEM.match(line) if line[:1] not in (" ", "", "-") else None
        if m and not re.match(r"^[^=]*=", line.split(" : ")[0]):
            name = m[1]
            found.append([name, hold + [line]])
            hold = []
        elif line.startswith("--") or (line == "" and not found):
            hold.append(line)
        elif found:
            found[-1][1].extend(hold + [line])
            hold = []
        else:
            hold.append(line)
    return head, found


def split_args(text):
    out, deep, cur = [], 0, ""
    for ch in text:
        if ch in " \n\t" and deep == 0:
            if cur:
                out.append(cur)
            cur = ""
            continue
        if ch in "([{":
            deep += 1
        if ch in ")]}":
            deep -= 1
        cur += ch
    if cur:
        out.append(cur)
    return out


def turn(crate, folder, names, known):
    path = os.path.join("proofs", folder, "Proof.antt")
    key = f"Rattle-{crate}-proofs." + folder.replace("/", ".") + ".Lts"
    if key not in names:
        print(f"{folder}: no {key}")
        return
    d = names[key]
    text = open(path, encoding="utf-8").read()
    if "tie.close" not in text:
        print(f"{folder}: not in the form of a tie, left")
        return
    head, found = items(text)
    needs = {same(a): b for a, b in d["needs"]}
    settled = {same(x) for x in d["settled"]}
    steps = {}
    for place in d["places"]:
        old, new = place[2]
        if old:
            steps.setdefault(same(old), new)

    def body(t):
        t = re.sub(r"(?:\.before)+(?![\w-])", "", t)

        def step(m):
            n = m[1]
            new = steps.get(same(n))
            return "." + new if new else m[0]

        t = re.sub(r"\.([A-Za-z][\w-]*)", step, t)

        def clause(m):
            f = re.sub(r"-.*", "", m[1])
            f = re.sub(r"\d+$", "", f) if f not in known[m[2]] else f
            ns = known[m[2]].get(f)
            k = int(m[3])
            return f".{m[1]}.{m[2]}.{ns[k]}" if ns and k < len(ns) else m[0]

        t = re.sub(r"\.([A-Za-z]\w*(?:-\w+)*)\.(ensures|requires)\.(\d+)", clause, t)
        return t.replace(" κs ", " ")

    invariants, answers, spec = [], [], ""
    loops = {}
    for (pair, variables), changed in zip(d["loops"], d["changed"]):
        loops[same(pair[0])] = (pair[1], variables, changed)
    goal_names = {}
    for name, lines in found:
        first = next(x for x in lines if ITEM.match(x))
        m = re.search(r":\s*tie\.(invariant|decreases)-([\w-]+)", first)
        if m and same(m[2]) in loops:
            new, variables, changed = loops[same(m[2])]
            kind = m[1]
            eq = "\n".join(x for x in lines if x != first and not x.startswith("--"))
            e = re.match(rf"\s*{re.escape(name)}\s+(.*?)\s*=\s*(.*)$", eq, re.S)
            note = [x for x in lines if x.startswith("--")]
            if not e:
                invariants.append("\n".join(["-- TODO by hand"] + lines))
                continue
            params = split_args(e[1])
            want = [("initial." if c else "") + v for v, c in zip(variables, changed)] + [v for v, c in zip(variables, changed) if c]
            b = e[2].rstrip()
            if len(params) != len(want):
                invariants.append(f"-- TODO by hand: {params} for {want}\n{kind}-{new} l = {b}")
                continue
            to = {p: "l." + w for p, w in zip(params, want) if p != "_"}
            b = re.sub(r"(?<![\w.'₀-₉-])([A-Za-z][\w'₀-₉-]*)", lambda m: to.get(m[1], m[1]), b)
            invariants.append("\n".join(note + [f"abbrev pub {kind}-{new} : goal.{kind}-{new}", f"{kind}-{new} l = {b}"]))
            continue
        if name in (same(os.path.basename(folder)) + "-spec", os.path.basename(folder) + "_spec") or ("tie.close" in "\n".join(lines)):
            spec = "\n".join(lines)
            continue
        m = re.search(r":\s*tie\.Need-([^\s]+)", first)
        if m:
            goal_names[name] = same(m[1])
            new = needs.get(same(m[1]))
            b = body("\n".join(x for x in lines if x != first))
            b = re.sub(rf"^{re.escape(name)}(?= )", "GOAL", b, flags=re.M)
            if new is None:
                answers.append(f"-- TODO: no goal {m[1]} now (settled: {same(m[1]) in settled})\n" + "\n".join("-- " + x for x in b.rstrip().split("\n")))
                continue
            eqs = re.sub(r"^GOAL", new, b, flags=re.M).rstrip()
            if re.fullmatch(rf"\s*{re.escape(new)} c = search rules\s*", eqs):
                continue
            notes = [x for x in eqs.split("\n") if x.startswith("--")]
            rest = [x for x in eqs.split("\n") if not x.startswith("--")]
            answers.append("\n".join(notes + [f"pub {new} : goal.{new}"] + [x for x in rest if x != ""]))
            continue
        answers.append(body("\n".join(lines)).rstrip())
    # what stands in the spec's own line
    m = re.search(r"tie\.spec\s+(.*)\)\s*$", spec, re.S)
    if m:
        inner = m[1]
        args = split_args(inner)
        args = [a for a in args if not re.match(r"(invariant|decreases)-", a) and a not in goal_names or a in goal_names]
        goals = [a for a in args if a in goal_names or a.startswith("(")]
        order = [b for _, b in d["needs"]]
        if len(goals) != len(order):
            extra = [a for a in goals if a.startswith("(") and not re.search(r"(search rules|omega arith)\)$", a)]
            if extra:
                answers.append("-- TODO: of the older proof's line: " + " ".join(" ".join(x.split()) for x in extra))
        else:
            for a, new in zip(goals, order):
                if a.startswith("(") and not re.search(r"\. (search rules|omega arith)\)$", a):
                    t = re.sub(r"^\(λ c(?: κs)?\.\s*", "", body(a))[:-1]
                    answers.append(f"pub {new} : goal.{new}\n{new} c = {t}")
    uses = [x for x in head if x.startswith("use ") and not x.endswith(" as tie") and ".Statement.{" not in x]
    notes = [x for x in head if x.startswith("--")]
    module = f"Rattle.{crate}.proofs." + folder.replace("/", ".")
    base = os.path.join("proofs", folder)
    if invariants:
        write(os.path.join(base, "Invariants.antt"), [], uses + [f"use {module}.Given as goal"], invariants)
    if answers:
        write(os.path.join(base, "Answers.antt"), notes, uses + [f"use {module}.Goals as goal"], answers)
    os.rename(path, path + ".txt")
    print(f"{folder}: {len(invariants)} invariants and measures, {len(answers)} answers")


def write(path, notes, uses, parts):
    with open(path, "w", encoding="utf-8") as f:
        f.write("\n".join(notes + uses) + "\n\n" + "\n\n".join(p.strip("\n") for p in parts) + "\n")


def main():
    names = json.load(open(sys.argv[1], encoding="utf-8"))
    crate = os.path.basename(os.getcwd())
    known = clauses()
    wanted = sys.argv[2:]
    for d, ds, fs in sorted(os.walk("proofs")):
        folder = os.path.relpath(d, "proofs")
        if "Proof.antt" in fs and (not wanted or folder in wanted):
            turn(crate, folder, names, known)


main()
