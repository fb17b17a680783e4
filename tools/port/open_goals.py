#!/usr/bin/env python3
"""Keeps of the answers that answers.py wrote those that the check asks for.

usage: cd crates/NAME; python3 ../../tools/port/open_goals.py

Sets each Answers.antt that git does not know aside as Answers.antt.full, checks, and writes back those for the goals that the check leaves open,
with the lemmas beside them; then checks again, and prints what is left.
"""
import os
import re
import subprocess

OPEN = re.compile(r"^fn (\S+): (?:no proof|not proved).*?expected answers in \./(proofs/\S+)/Answers\.antt; `search` did not prove (.*)$")
GOAL = re.compile(r"^pub ([\w-]+) : goal\.")


def check():
    p = subprocess.run(["rt", "check"], stdout=subprocess.PIPE, stderr=subprocess.STDOUT, text=True)
    return p.stdout


def parts(text):
    """The head, the items that are no goals, and each goal's item."""
    head, other, goals, cur, name = [], [], {}, [], None
    started = False

    def close():
        nonlocal cur
        if not cur:
            return
        t = "\n".join(cur).strip("\n")
        if not t:
            cur = []
            return
        if name:
            goals[name] = t
        else:
            other.append(t)
        cur = []

    hold = []
    for line in text.split("\n"):
        if not started and (line.startswith(("use ", "--")) or not line):
            head.append(line)
            continue
        started = True
        if line.startswith("--"):
            hold.append(line)
            continue
        if re.match(r"^(?:(?:abbrev|unfoldable|pub)\s+)*[^\s:(){}]+\s*:(?!:)\s", line):
            close()
            m = GOAL.match(line)
            name = m[1] if m else None
            cur = hold + [line]
            hold = []
            continue
        cur += hold + [line]
        hold = []
    cur += hold
    close()
    return "\n".join(head).rstrip("\n"), other, goals


def main():
    full = []
    for d, ds, fs in os.walk("proofs"):
        if "Answers.antt" in fs:
            p = os.path.join(d, "Answers.antt")
            if subprocess.run(["git", "ls-files", "--error-unmatch", p], stdout=subprocess.DEVNULL, stderr=subprocess.DEVNULL).returncode:
                os.rename(p, p + ".full")
    said = check()
    for line in said.split("\n"):
        m = OPEN.match(line)
        if not m:
            continue
        path = m[2] + "/Answers.antt"
        if not os.path.exists(path + ".full"):
            print("no answers of old for", line[:300])
            continue
        head, other, goals = parts(open(path + ".full", encoding="utf-8").read())
        wanted = re.findall(r"`([^`]+)`", m[3].split("; ")[0])
        keep = []
        for w in wanted:
            g = w if w in goals else next((x for x in goals if w.startswith(x + "-clause-")), None)
            if g is None:
                print(f"{m[2]}: no answer of old for {w}")
            elif goals[g] not in keep:
                keep.append(goals[g])
        if keep:
            open(path, "w", encoding="utf-8").write(head + "\n\n" + "\n\n".join(other + keep) + "\n")
    for line in check().split("\n"):
        if not re.match(r"checked|statements|logic /|crate |rt: chose|rt: rt |fn .*: proved$|library ", line):
            print(line[:600])


main()
