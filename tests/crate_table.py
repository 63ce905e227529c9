#!/usr/bin/env python3
"""Writes the crates into docs/ARCHITECTURE.md: layers and uses by crates.txt, what each holds by the first line of its lib.rt or main.rt.

  crate_table.py          writes them
  crate_table.py --check  fails if they are not what would be written, or a crate has no first line `// ..` of at most 140 characters
"""
import re
import sys
from pathlib import Path

TOP = Path(__file__).resolve().parent.parent
DOC = TOP / "docs" / "ARCHITECTURE.md"
BEGIN, END = "<!-- crates -->\n", "<!-- end of crates -->\n"
# Nearly every crate uses these.
GROUND = {"rules", "theory"}


def listed():
    """(layer, crate, what it uses) for each line of crates.txt; a comment there is the name of a layer, and a static library has that word after its name."""
    layer = ""
    for line in (TOP / "crates.txt").read_text(encoding="utf-8").splitlines():
        if line.startswith("# "):
            layer = line[2:]
        elif line.strip():
            kind, uses = line.split(":")
            yield layer, kind.split()[0], uses.split()


def holds(crate):
    """What a crate says of itself."""
    sources = [TOP / "crates" / crate / "src" / name for name in ("lib.rt", "main.rt")]
    for source in filter(Path.is_file, sources):
        # rt tidy writes its attribute above the line of a crate that has no code.
        first = source.read_text(encoding="utf-8").removeprefix("#![tactic(auto)]\n\n").split("\n", 1)[0]
        if not re.fullmatch(r"// .{1,136}\.", first):
            sys.exit(f"crate_table: {source.relative_to(TOP)} does not begin with a line `// ..` of at most 140 characters")
        return first[3:-1].replace("|", r"\|")
    sys.exit(f"crate_table: crate {crate} has no src/lib.rt or src/main.rt")


def nearest(crates):
    """What each crate stands on: the crates of this tree that it uses, less what it reaches through another, and less the ground."""
    ours = {crate for _, crate, _ in crates} - GROUND
    uses = {crate: [u for u in used if u in ours] for _, crate, used in crates}

    def below(crate):
        return {under for u in uses.get(crate, []) for under in (u, *below(u))}

    return {crate: [u for u in used if not any(u in below(v) for v in used)] for crate, used in uses.items()}


def table():
    crates = list(listed())
    stands = nearest(crates)
    rows, before = ["| layer | crate | stands on | what it holds |", "|---|---|---|---|"], ""
    for layer, crate, _ in crates:
        rows.append(f"| {layer if layer != before else ''} | {crate} | {', '.join(stands[crate])} | {holds(crate)} |")
        before = layer
    return "\n".join(rows) + "\n"


def main():
    page = DOC.read_text(encoding="utf-8")
    front, _, rest = page.partition(BEGIN)
    _, found, back = rest.partition(END)
    if not found:
        sys.exit(f"crate_table: docs/ARCHITECTURE.md has no {BEGIN.strip()} .. {END.strip()}")
    written = front + BEGIN + table() + END + back
    if sys.argv[1:] != ["--check"]:
        DOC.write_text(written, encoding="utf-8")
    elif written != page:
        sys.exit("crate_table: the crates of docs/ARCHITECTURE.md are not what tests/crate_table.py writes")


if __name__ == "__main__":
    main()
