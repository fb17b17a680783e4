#!/usr/bin/env python3
"""Brings this repository's own definitions and lemmas to the spelling of today's Rattle: snake case for every word, a dash only between two names.

usage: python3 tools/port/spelling.py [--list]     at the top of the repository, once, right after the kit's port.py

Run with --list it changes nothing and prints each name with its new one, and the names that fall together. Types, modules, Rust items, strings,
inputs and outputs keep their names. Names that Rattle makes (goals, steps, records of c) are left alone.
"""
import collections
import os
import re
import sys

NAME = r"[^\s:(){}\[\].,;\"`·]+"
DEF = re.compile(r"^(?:(?:abbrev|unfoldable|pub|opaque|ghost|private)\s+)*(" + NAME + r")\s*:(?!:)(?:\s|$)")
# a definition in a module with parameters
INNER = re.compile(r"^  (?:(?:abbrev|unfoldable|pub)\s+)+(" + NAME + r")\s*:(?!:)\s")
FIELD = re.compile(r"^\s+(?:pub\s+)?(" + NAME + r")\s*:\s")
CASE = re.compile(r"^\s+(?:pub\s+)?(" + NAME + r")\s*:\s")
OPERATOR = re.compile(r"◌([a-z]\w*[A-Z]\w*)◌")
TOKEN = re.compile(r"[A-Za-zΑ-ω_][A-Za-z0-9Α-ω_'₀-₉-]*")

# Names that would fall together with another, and what stands for them: a test and the constructor of its fact, a lemma and its function.
APART = {
    "atFirst": "has_at_first",
    "atLast": "has_at_last",
    "secondAt": "has_second_at",
    "longWithoutAt": "is_long_without_at",
    "is-for-domain": "is_for_domain_lem",
    "laid_out": "laid_out_lem",
    "mac-by-values": "mac_by_values_lem",
    "parent_live": "parent_live_lem",
    "step-at": "step_at_lem",
    "prfPlus": "prf_plus_of",
    "prfPlus-length": "prf_plus_of-length",
    "mix-byte": "mix_byte_lem",
    "signedPasses": "signed_passes_lem",
    "signsAgain": "signs_again_lem",
    "othersStay": "others_stay_lem",
    "onlySigned": "only_signed_lem",
    "liveCount": "live_slot_count",
}
# A name of APART that is spelled so already in other files is changed in these alone.
ONLY = {"laid_out": "crates/aes128/proofs/", "parent_live": "crates/slot_rules/proofs/"}


def files(root, ends=(".antt",)):
    for d, ds, fs in os.walk(os.path.join(root, "crates")):
        ds[:] = sorted(x for x in ds if x != "out")
        for f in sorted(fs):
            if f.endswith(ends):
                yield os.path.join(d, f)


def own(root):
    """Each definition, lemma, field and constructor of the repository with the files that define it."""
    found = collections.defaultdict(set)
    for p in files(root):
        made = os.path.basename(p) in ("Proof.antt", "Answers.antt", "Invariants.antt")
        inside = False
        for line in open(p, encoding="utf-8"):
            head = re.match(r"^(?:pub )?(?:record|data)\s+(\S+)", line)
            if head:
                inside = True
                found[head[1]].add(p)
                continue
            if line[:1] not in (" ", "-", "\n"):
                inside = False
            m = DEF.match(line)
            if m and not line.startswith(("--", "use ", " ")):
                inside = False
                if made and re.search(r":\s*(?:\{M : Type 1\} → statement|tie\.|goal\.)", line):
                    continue
                found[m[1]].add(p)
            elif inside:
                m = FIELD.match(line)
                if m:
                    found[m[1]].add(p)
            elif not made:
                m = INNER.match(line)
                if m:
                    found[m[1]].add(p)
    return found


def snake(word):
    w = re.sub(r"(?<=[a-z0-9])(?=[A-Z])", "_", word)
    return w.lower()


def new_name(name, words):
    if name.startswith("◌") or "◌" in name:
        return "◌".join(snake(x) if re.match(r"[a-z]\w*$", x) else x for x in name.split("◌"))
    if not re.match(r"[A-Za-z_]", name):
        return name
    parts = name.split("-")
    out, flat = parts[0] if parts[0][:1].isupper() else snake(parts[0]), parts[0]
    for p in parts[1:]:
        # a dash stays between two names of definitions
        joins = flat in words and p in words
        out += ("-" if joins else "_") + (p if p[:1].isupper() else snake(p))
        flat = p
    return out


def kit_words():
    out = set()
    path = "/opt/rattle/rattle/std/specs/Prelude.antt"
    for p in (path, "/opt/rattle/rattle/std/proofs/Common.antt"):
        if os.path.exists(p):
            out |= set(TOKEN.findall(open(p, encoding="utf-8").read()))
    return {w for w in out if "-" not in w}


def turn(text, names, path):
    """The text with each name outside a string turned."""
    def one(m):
        n = m[0]
        if n in ONLY and ONLY[n] not in path:
            return n
        return names.get(n, n)

    parts = re.split(r'("(?:[^"\\\n]|\\.)*")', text)
    return "".join(p if k % 2 else OPERATOR.sub(lambda m: "◌" + snake(m[1]) + "◌", TOKEN.sub(one, p)) for k, p in enumerate(parts))


# A crate that has the name of a library of the kit, and its new name.
CRATES = {"sha1": "sha1_hash"}


def rename_crates(root):
    """Moves each crate of CRATES, and turns its name in crates.txt, in paths and in `use` lines."""
    for old, new in CRATES.items():
        there, to = os.path.join(root, "crates", old), os.path.join(root, "crates", new)
        if not os.path.isdir(there):
            continue
        os.rename(there, to)
        listed = os.path.join(root, "crates.txt")
        lines = [x if x.startswith("#") else re.sub(rf"\b{old}\b", new, x) for x in open(listed, encoding="utf-8").read().split("\n")]
        open(listed, "w", encoding="utf-8").write("\n".join(lines))
        for p in files(root, (".antt", ".rt", ".edit")):
            t = open(p, encoding="utf-8").read()
            n = re.sub(rf"\bRattle\.{old}\.", f"Rattle.{new}.", t)
            n = re.sub(rf"(?<![\w.:/`]){old}::", f"{new}::", n)
            n = re.sub(rf"`{old}::", f"`{new}::", n)
            if n != t:
                open(p, "w", encoding="utf-8").write(n)


def main():
    root = "."
    found = own(root)
    words = {n for n, ps in found.items() if any("/specs/" in p for p in ps)} | kit_words()
    names = {}
    for n in found:
        m = APART.get(n) or new_name(n, words)
        if m != n:
            names[n] = m
    if "--list" in sys.argv:
        for n in sorted(names):
            print(n, names[n])
        back = collections.defaultdict(set)
        for n in found:
            back[names.get(n, n)].add(n)
        print("== together")
        for m, ns in sorted(back.items()):
            if len(ns) > 1:
                print(m, sorted(ns), [sorted(found[n])[:2] for n in sorted(ns)])
        return
    rename_crates(root)
    changed = 0
    for p in files(root, (".antt", ".rt", ".edit")):
        with open(p, encoding="utf-8") as f:
            old = f.read()
        new = turn(old, names, p)
        if new != old:
            changed += 1
            with open(p, "w", encoding="utf-8") as f:
                f.write(new)
    print(f"{len(names)} names turned in {changed} files")


if __name__ == "__main__":
    main()
