#!/usr/bin/env python3
"""Respells the repository's own definitions and lemmas: words in snake case, types in camel case.

usage: tools/respell.py        at the top of the repository, once, after the kit's port.py

A name in camel case that begins with a small letter is one of specs/ or proofs/, never of src/: code is in snake case. Each is turned in
every .antt and .rt file, must-fail edit and page; strings of src/ and inputs and outputs keep their text. With --list it prints the names, and
those new ones that are a word of some proof already, as a function of src/ or a local name may be; it writes nothing then.
"""

import os
import re
import sys

CAMEL = re.compile(r"(?<![A-Za-z0-9_'\"\\])[a-z][a-z0-9_']*[A-Z][A-Za-z0-9_']*")
# the library's own name for what the older one called getD
OTHERS = {"getD": "get_or"}
# a type that began with a small letter, and a lemma whose name a definition takes: crate, old, new
SINGLE = [("leaps", "follows", "Follows"), ("pieces", "half_step", "step-halved")]


def snake(name):
    return re.sub(r"(?<=[a-z0-9'])([A-Z])", lambda m: "_" + m.group(1).lower(), name)


def files(root):
    for folder, dirs, names in os.walk(root):
        dirs[:] = sorted(d for d in dirs if d not in ("out", ".git", "target", "landings"))
        for name in sorted(names):
            yield os.path.join(folder, name)


def read(path):
    with open(path, encoding="utf-8") as f:
        return f.read()


def pieces(text):
    """The text as (piece, may be turned): what stands between double quotes in code stays."""
    at = 0
    for m in re.finditer(r'"(?:[^"\\\n]|\\.)*"', text):
        yield text[at : m.start()], True
        yield m.group(0), False
        at = m.end()
    yield text[at:], True


def main():
    paths = [p for p in files("crates") if p.endswith((".antt", ".rt", ".edit"))]
    pages = [p for p in files(".") if p.endswith(".md") and not p.startswith("./crates")]
    proofs = [p for p in paths if p.endswith(".antt")]
    old, words = set(), set()
    for p in proofs:
        t = read(p)
        words |= set(re.findall(r"[A-Za-z_][A-Za-z0-9_']*", t))
        old |= set(CAMEL.findall(t))
    turn = {name: OTHERS.get(name, snake(name)) for name in sorted(old)}
    if "--list" in sys.argv:
        for o, n in turn.items():
            print(o, n, "(a word already)" if n in words else "")
        return

    # port.py turned some names in the proofs and not in the edits and the pages
    words |= set(turn.values())

    def one(m):
        return turn.get(m.group(0), m.group(0))

    def aside(m):
        n = OTHERS.get(m.group(0), snake(m.group(0)))
        return n if n in words else m.group(0)

    changed = 0
    for p in paths + pages:
        t = s = read(p)
        for crate, a, b in SINGLE:
            if p.startswith(f"crates/{crate}/proofs/"):
                s = re.sub(rf"(?<![A-Za-z0-9_'-]){a}(?![A-Za-z0-9_'-])", b, s)
        if p.endswith(".rt"):
            u = "".join(CAMEL.sub(one, x) if free else x for x, free in pieces(s))
        else:
            u = CAMEL.sub(one if p.endswith(".antt") else aside, s)
        if p.endswith(".edit") and "file: specs/" in u:
            # a projection is written tight
            u = re.sub(r"(?<=\S) \.(?=[a-z])", ".", u)
        if u != t:
            changed += 1
            with open(p, "w", encoding="utf-8") as f:
                f.write(u)
    print(f"respell: {len(turn)} names, {changed} files")


main()
