#!/usr/bin/env python3
"""Lists functions of crates/*/src that differ only in names, types, sizes or constants: twins.

  twins.py         each group on a line
  twins.py --near  also pairs whose texts agree to nine tenths

A function's text is its body without comments, with its own name, numbers, types and constants each replaced by one letter.
"""
import re
import sys
from difflib import SequenceMatcher
from pathlib import Path

TOP = Path(__file__).resolve().parent.parent
FUNCTION = re.compile(r"^( *)(?:pub )?(?:extern \"C\" )?fn (\w+)[^\n]*\n(?:.*?\n)??\1\{\n(.*?)^\1\}$", re.M | re.S)
WORD = re.compile(r"[A-Za-z_]\w*|\d[\d_]*|\S")


def text(body):
    """The words of a body, in which only its shape counts."""
    body = re.sub(r"//.*", "", body)
    words = []
    for word in WORD.findall(body):
        if word[0].isdigit():
            words.append("0")
        elif word[0].isupper() or word in ("u8", "u16", "u32", "u64", "usize"):
            words.append("T")
        else:
            words.append(word)
    return words


def functions():
    for path in sorted(TOP.glob("crates/*/src/**/*.rt")):
        for _, name, body in FUNCTION.findall(path.read_text(encoding="utf-8")):
            words = text(body)
            if 12 <= len(words):
                yield f"{path.parts[-3] if path.parts[-2] == 'src' else path.parts[-4]}::{name}", words


def nameless(words):
    """The same, each name by the place where it first stands."""
    seen = {}
    return tuple(str(seen.setdefault(word, len(seen))) if word[0].isalpha() and word != "T" else word for word in words)


def main():
    groups, bodies = {}, list(functions())
    for name, words in bodies:
        groups.setdefault(nameless(words), []).append(name)
    found = [group for group in groups.values() if 1 < len(group)]
    for group in found:
        print("same:", ", ".join(group))
    if "--near" in sys.argv:
        for i, (a, one) in enumerate(bodies):
            for b, other in bodies[i + 1:]:
                if nameless(one) != nameless(other) and 30 <= len(one) and 0.9 <= SequenceMatcher(None, nameless(one), nameless(other), False).ratio():
                    print("near:", a, b)
    print(len(found), "groups of", sum(map(len, found)), "functions, of", len(bodies))


if __name__ == "__main__":
    main()
