#!/usr/bin/env python3
"""Brings the names of definitions and lemmas to snake case, once, after the toolchain's port.py: run at the top.

Names are read from specs/ and from the files of lemmas in proofs/. Names of src/ and strings stay. Where a definition
and a lemma would have one name, the lemma gets `_lem`. The names are printed, old and new.
"""
import collections
import glob
import re

PART = r"[A-Za-z_][A-Za-z0-9_'₀-₉ℕℤ]*"
TOKEN = re.compile(PART + r"(?:-" + PART + r")*")
DECLARED = re.compile(r"^[ ]*((?:(?:abbrev|unfoldable|pub|data|record)\s+)*)(" + TOKEN.pattern +
                      r")((?:\s*(?:\{[^}]*\}|\([^)]*\)))*)\s*:(?!=)", re.M)
CAMEL = re.compile(r"[a-z][a-z0-9_]*[A-Z]")


def snake(name):
    parts = []
    for p in name.split("-"):
        if CAMEL.match(p):
            p = re.sub(r"([a-z0-9])([A-Z])", r"\1_\2", p).lower()
        parts.append(p)
    return "_".join(parts)


def antt():
    return sorted(glob.glob("crates/*/specs/**/*.antt", recursive=True) + glob.glob("crates/*/proofs/**/*.antt", recursive=True))


def names():
    """Old and new name of each that changes."""
    specs, lemmas = set(), set()
    for f in antt():
        parts = f.split("/")
        if parts[2] == "specs":
            into = specs
        elif len(parts) == 4:
            into = lemmas
        else:
            continue        # a function's own proof: its labels are the toolchain's
        for m in DECLARED.finditer(open(f, encoding="utf-8").read()):
            into.add(m.group(2))
    groups = collections.defaultdict(set)
    for n in specs | lemmas:
        groups[snake(n)].add(n)
    new = {}
    for name, olds in groups.items():
        # the definition keeps the name: one of specs/ before a lemma, one in camel case before one with dashes
        ranked = sorted(olds, key=lambda n: (n not in specs, "-" in n, not CAMEL.match(n), n))
        for i, n in enumerate(ranked):
            to = name + "_lem" * i
            assert i < 2 and (i == 0 or to not in groups), (name, olds)
            if n != to:
                new[n] = to
    return new


def turned(code, new):
    def one(m):
        w = m.group(0)
        if w in new:
            return new[w]
        # a variable in camel case, or a longer name that the toolchain made of one
        return "-".join(new.get(p, snake(p)) if CAMEL.match(p) else p for p in w.split("-"))
    return TOKEN.sub(one, code)


STRING = re.compile(r'"(?:[^"\\]|\\.)*"')


def main():
    new = names()
    new["roomLaws"] = "RoomLaws"
    for f in antt() + sorted(glob.glob("crates/*/src/**/*.rt", recursive=True)):
        with open(f, encoding="utf-8") as h:
            text = h.read()
        if f.endswith(".rt"):
            at, out = 0, []
            for m in STRING.finditer(text):
                out += [turned(text[at:m.start()], new), m.group(0)]
                at = m.end()
            after = "".join(out) + turned(text[at:], new)
        else:
            after = turned(text, new)
        if after != text:
            with open(f, "w", encoding="utf-8") as h:
                h.write(after)
    for n in sorted(new):
        print(n, new[n])


if __name__ == "__main__":
    main()
