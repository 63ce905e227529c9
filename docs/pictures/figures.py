#!/usr/bin/env python3
"""figures.py BENCH PAGE: prints PAGE with the figures of bench/run's output BENCH between its two marks."""
import re
import sys

from bench import CALLS, ROWS, cells, costliest

MARKS = re.compile(r"(<!-- figures -->\n).*(<!-- end of figures -->\n)", re.DOTALL)


def stacks(text):
    """By call, of the library."""
    part = text[text.index("Stack in bytes"):]
    return dict(re.findall(r"^(\w+) +([\d,]+) +[\d,]+$", part, re.MULTILINE))


def table(text):
    found, stack = cells(text.splitlines()), stacks(text)
    yield "| call | stack, bytes | " + " | ".join(f"instructions, {n:,} row{'s'[:n > 1]}" for n in ROWS) + " |"
    yield "|---" * (2 + len(ROWS)) + "|"
    for call in CALLS:
        most = (f"{costliest(found, call, n, 0):,}" for n in ROWS)
        yield f"| {call} | {stack[call]} | " + " | ".join(most) + " |"


def row_more(found, shape):
    """What one row more costs where a table is only found sound."""
    most, fewer = (found["soundness", shape, n][0] for n in (1024, 128))
    return (most - fewer) / (1024 - 128)


def soundness(text):
    found = cells(text.splitlines())
    yield ""
    yield f"Of this, to find the table sound takes {row_more(found, '-'):.0f} for each row in use, in every call but opening; and each row that"
    yield f"is not in use takes {row_more(found, 'unused'):.0f}."


def main():
    bench, page = sys.argv[1:]
    with open(bench, encoding="utf-8") as file:
        figures = file.read()
    lines = "\n".join([*table(figures), *soundness(figures)])
    with open(page, encoding="utf-8") as file:
        text, places = MARKS.subn(lambda marks: marks[1] + lines + "\n" + marks[2], file.read())
    if places != 1:
        sys.exit(f"figures: {page} has no two marks to write between")
    print(text, end="")


if __name__ == "__main__":
    main()
