#!/usr/bin/env python3
"""Respells the repository's own definitions and lemmas, after port.py: words in snake case, `read-point` as `read_point`.

usage: python3 tools/respell.py [--dry]      at the top of the repository, once, right after port.py

Names that files of specs/ and proofs/ declare are turned wherever they stand: in specs/, in proofs/, in the clauses,
ghost items and imports of src/, and in must-fail/. Names that Rattle makes (`goal.returns-then-eq`), names of its
library, functions of src/, strings and comments of src/ keep their spelling. Names that would fall together are printed.
"""
import collections
import glob
import os
import re
import sys

DASHED = re.compile(r"[A-Za-z0-9_][\w']*(?:-[A-Za-z0-9_][\w']*)+(?![\w'])")
DECLARED = re.compile(r"^(\s*)(?:pub |abbrev |unfoldable |infix\w* )*([^\s(){}\[\],;.«»:λ]+)\s*:\s(.*)$")
HEAD = re.compile(r"^\s*(?:pub |abbrev |unfoldable )*(?:data|record) ([^\s(){}:]+)")
IMPORT = re.compile(r"^\s*(?:pub )?(?:ghost )?use ([^\s{}]+?)\.?\{(.*)\}")


def antt(*kinds):
    out = []
    for k in kinds:
        out += glob.glob(f"crates/*/{k}/**/*.antt", recursive=True)
    return sorted(out)


def is_library(path):
    head = path.split(".")[0]
    if head != "Rattle":
        return True
    crate = path.split(".")[1] if "." in path else ""
    return not os.path.isdir(f"crates/{crate}")


def declared():
    """Every name that specs/ or proofs/ declares, but for answers to goals and generated invariants."""
    names = collections.defaultdict(set)
    for f in antt("specs", "proofs"):
        for line in open(f, encoding="utf-8"):
            m = HEAD.match(line)
            if m:
                names[m.group(1)].add(f)
                continue
            m = DECLARED.match(line)
            if m and not m.group(3).startswith("goal."):
                names[m.group(2)].add(f)
    return names


def library_names():
    """Names that some file imports from a library, in that file."""
    out = collections.defaultdict(set)
    for f in antt("specs", "proofs") + sorted(glob.glob("crates/*/src/**/*.rt", recursive=True)):
        for line in open(f, encoding="utf-8"):
            m = IMPORT.match(line)
            if m and is_library(m.group(1)):
                for n in m.group(2).split(","):
                    n = n.strip()
                    out[f].add(n.split(" as ")[-1].strip())
    return out


def snake(name):
    return name.replace("-", "_")


def turn(text, own, kept, rust=False):
    def one(m):
        n = m.group(0)
        before = text[max(0, m.start() - 5):m.start()]
        if n not in own or n in kept or before.endswith("goal."):
            return n
        return snake(n)

    if not rust:
        return DASHED.sub(one, text)
    out = []
    for line in text.split("\n"):
        code, sep, comment = (line, "", "") if line.lstrip().startswith("//") is False and "//" not in line else line.partition("//")
        parts = re.split(r'("(?:[^"\\]|\\.)*")', code)
        for i in range(0, len(parts), 2):
            def inner(m):
                n = m.group(0)
                return snake(n) if n in own and n not in kept else n
            parts[i] = DASHED.sub(inner, parts[i])
        out.append("".join(parts) + sep + comment)
    return "\n".join(out)


def main():
    dry = "--dry" in sys.argv
    names = declared()
    lib = library_names()
    own = {n for n in names if "-" in n and DASHED.fullmatch(n)}
    for n in sorted(own):
        if snake(n) in names:
            print(f"falls together: {n} in {sorted(names[n])} and {snake(n)} in {sorted(names[snake(n)])}")
    changed = 0
    for f in antt("specs", "proofs") + sorted(glob.glob("crates/*/src/**/*.rt", recursive=True)) + sorted(glob.glob("crates/*/must-fail/*.edit")):
        old = open(f, encoding="utf-8").read()
        kept = {n for n in lib[f] if "-" in n}
        if kept & own:
            print(f"library's and ours: {f}: {sorted(kept & own)}")
        for n in own:
            if snake(n) in lib[f] and re.search(r"(?<![\w'-])" + re.escape(n) + r"(?![\w'-])", old):
                print(f"would meet a library's name: {f}: {n}")
        new = turn(old, own, kept, f.endswith(".rt"))
        if new != old:
            changed += 1
            if not dry:
                open(f, "w", encoding="utf-8").write(new)
    left = collections.Counter()
    for f in antt("specs", "proofs"):
        text = open(f, encoding="utf-8").read()
        for m in DASHED.finditer(text):
            n = m.group(0)
            if n not in own and n not in lib[f] and not text[:m.start()].endswith("goal."):
                left[n] += 1
    print(f"respell: {len(own)} names, {changed} files; other words with a dash: {' '.join(sorted(left))}")


main()
