#!/usr/bin/env python3
"""Brings the repository's own names to Rattle's spelling: types in camel case, functions and lemmas in snake case.

usage: tools/spelling.py [--list]     at the top of the repository, once, after port.py

Own names with a dash are read where they are defined, in specs/ and proofs/ (files that follow a function's code step by step aside:
their needs are named by the kit). They are respelled in specs/, proofs/, contracts and must-fail edits.
It stops where two names would fall together.
"""
import os
import re
import sys

NAME = re.compile(r"(?<![\w'?\-≡≢])([A-Za-z][\w'?]*(?:-[\w'?]+)+)(?![\w'?\-≡≢])")
START = re.compile(r"^\s*(?:(?:abbrev|unfoldable|pub|record|data|ruleset|\|) +)*([A-Za-z][\w'?]*(?:-[\w'?]+)+) *(:|\()")
STRING = re.compile(r'b?"(?:[^"\\]|\\.)*"')


def files(top, folders, ending):
    for folder, dirs, names in os.walk(top):
        dirs[:] = sorted(d for d in dirs if d not in ("out", "target", ".git"))
        parts = folder.split(os.sep)
        if any(f in parts for f in folders):
            for n in sorted(names):
                if n.endswith(ending):
                    yield os.path.join(folder, n)


def read(path):
    with open(path, encoding="utf-8") as f:
        return f.read()


def of_code(path):
    """A file that follows a function's code: its names are the kit's."""
    return path.endswith("Proof.antt") or "/Proof/" in path


def respelt(name):
    parts = name.split("-")
    if name[0].isupper():
        return "".join(p[0].upper() + p[1:] for p in parts)
    return "_".join(parts)


def own_names():
    own = set()
    for p in files("crates", ("specs", "proofs"), ".antt"):
        for line in read(p).splitlines():
            m = START.match(line)
            if not m:
                continue
            kind = line[m.end():]
            if of_code(p) and ("tie." in kind or "statement" in kind or "code." in kind or not re.match(r"^(abbrev |unfoldable |pub )*[A-Za-z]", line)):
                continue
            own.add(m.group(1))
    return own


def imported(text):
    """Dashed names that a file takes from std or the kit."""
    out = set()
    for m in re.finditer(r"use ([\w.+'·]+)\.\{([^}]*)\}", text):
        if not m.group(1).startswith("Rattle.") or m.group(1).startswith("Rattle.std"):
            out |= set(NAME.findall(m.group(2)))
    return out


def main():
    own = own_names()
    new = {n: respelt(n) for n in own}
    if len(set(new.values())) != len(new):
        seen = {}
        for a, b in new.items():
            seen.setdefault(b, []).append(a)
        raise SystemExit("two own names fall together: " + str([v for v in seen.values() if len(v) > 1]))
    if "--list" in sys.argv:
        for a in sorted(new):
            print(a, new[a])
    clashes = []

    def turn(text, path):
        of_kit = imported(read(path))

        def one(m):
            name = m.group(1)
            if name not in new or name in of_kit:
                return name
            if of_code(path) and text[m.start() - 1] == ".":
                return name
            return new[name]
        return NAME.sub(one, text)

    plan = []
    for p in files("crates", ("specs", "proofs"), ".antt"):
        plan.append((p, turn(read(p), p)))
    for p in files("crates", ("src",), ".rt"):
        pieces, last, text = [], 0, read(p)
        for m in STRING.finditer(text):
            pieces += [turn(text[last:m.start()], p), m.group(0)]
            last = m.end()
        plan.append((p, "".join(pieces) + turn(text[last:], p)))
    for p in files("crates", ("must-fail",), ".edit"):
        plan.append((p, turn(read(p), p)))
    for p, text in plan:
        before = set(re.findall(r"[\w'?]+", re.sub(NAME, " ", read(p))))
        for n in (set(NAME.findall(read(p))) & set(new)) - imported(read(p)):
            if new[n] in before and n[0].islower() and p.endswith(".antt") and not of_code(p):
                clashes.append((p, n, new[n]))
    for c in clashes:
        print("clash:", *c)
    if clashes and "--anyway" not in sys.argv:
        raise SystemExit(f"{len(clashes)} clashes")
    if "--list" in sys.argv:
        return
    n = 0
    for p, text in plan:
        if text != read(p):
            with open(p, "w", encoding="utf-8") as f:
                f.write(text)
            n += 1
    print(f"respelt {len(new)} names in {n} files")


if __name__ == "__main__":
    main()
