#!/usr/bin/env python3
"""Turns the repository's own camelCase words of specs/, proofs/ and clauses to snake_case: `sumOf` to `sum_of`, `walkS` to `walk_s`.

usage: tools/respell.py [--map]

Run once, right after port.py of the kit, at the top. Types, modules and what the source declares keep their names; comments turn with the code. It stops where
two names would fall together. With --map it prints each old and new name, with a star where the new one was also the name of something else, and writes nothing.
"""
import os
import re
import sys

WORD = re.compile(r"(?<![A-Za-z0-9_'])[A-Za-z0-9_'ℤℕ-]*[A-Za-z0-9_'ℤℕ]")
# a lemma whose name a definition gets, in a file that has both
ASIDE = {"crates/demands/proofs/Indexed.antt": ("not_own", "not_own-here")}


def snake(word):
    """The word in snake case, part by part; a part that begins with a capital is a type and stays."""
    def turn(part):
        if not part or not part[0].islower() or not re.search(r"[A-Z]", part):
            return part
        return re.sub(r"(?<=[a-z0-9_'])([A-Z]+)", lambda m: "_" + m.group(1).lower(), part)

    if word.startswith("b'"):
        return word
    return "-".join(turn(p) for p in word.split("-"))


def sources():
    for folder, dirs, files in os.walk("crates"):
        dirs[:] = sorted(d for d in dirs if d not in ("out", "must-fail"))
        for f in sorted(files):
            if f.endswith((".rt", ".antt")):
                yield os.path.join(folder, f)


def read(path):
    with open(path, encoding="utf-8") as f:
        return f.read()


def code(text):
    return re.sub(r"(?:--|//)[^\n]*", "", text)


def names():
    old, seen = set(), set()
    for p in sources():
        for w in WORD.findall(code(read(p))):
            (old if snake(w) != w else seen).add(w)
    return old, seen


def main(argv):
    old, seen = names()
    new = {}
    for w in sorted(old):
        if snake(w) in new:
            print(f"{w} and {new[snake(w)]} fall together", file=sys.stderr)
            return 1
        new[snake(w)] = w
    if "--map" in argv:
        for s, w in sorted(new.items(), key=lambda x: x[1]):
            # beside a name that only functions, modules and crates have, or another file
            print(f"{w} {s}" + (" *" if s in seen else ""))
        return 0
    for p in sources():
        t = n = read(p)
        if p in ASIDE:
            n = WORD.sub(lambda m: ASIDE[p][1] if m.group(0) == ASIDE[p][0] else m.group(0), n)
        n = WORD.sub(lambda m: snake(m.group(0)) if m.group(0) in old else m.group(0), n)
        if n != t:
            with open(p, "w", encoding="utf-8") as f:
                f.write(n)
    return 0


if __name__ == "__main__":
    raise SystemExit(main(sys.argv[1:]))
