#!/usr/bin/env python3
"""bench.py FIGURES: draws what bench/run printed. Left, the instructions of each call by rows, its costliest shape;
right, at 1,024 rows, the ratio to tuned Rust in the seven shapes of full tables."""
import math
import re
import sys

WIDTH, HEIGHT, TOP, BOTTOM = 960, 720, 76, 630
LEFT, RIGHT = 80, 400
ROWS = (1, 16, 128, 1024)
CALLS = ("open", "take", "seal", "send", "sealed", "mark", "total", "substitute")
SHAPES = ("-", "inplan", "halfout", "asc2x", "fewdue", "equal", "spread", "chain")
COLOURS = {"open": "#7a5195", "take": "#3a7d44", "seal": "#7f9f3f", "total": "#b8860b", "mark": "#d9730d", "sealed": "#4fa3a5",
           "substitute": "#b0305c", "send": "#3b6ea5"}
INK, GREY, GRID, PAPER = "#222222", "#666666", "#dddddd", "#ffffff"
CELL = re.compile(r"(\w+) +(\w+|-) +(\d+) +(\d+) \| +([\d,]+) +([\d,]+) ")


def cells(lines):
    """(call, shape, rows): instructions of the library and of tuned Rust, at 1,024 slots."""
    found = {}
    for match in filter(None, map(CELL.match, lines)):
        call, shape, rows, slots, ours, tuned = match.groups()
        if slots == "1024":
            found[call, shape, int(rows)] = tuple(int(n.replace(",", "")) for n in (ours, tuned))
    return found


def across(rows):
    return LEFT + (RIGHT - LEFT) * math.log2(rows) / 10


def up(instructions):
    return BOTTOM - (BOTTOM - TOP) * (math.log10(instructions) - 1) / 5


def text(x, y, words, colour=INK, anchor="start", weight="normal", size=12):
    return f'<text x="{x:.0f}" y="{y:.0f}" fill="{colour}" text-anchor="{anchor}" font-weight="{weight}" font-size="{size}">{words}</text>'


def line(x1, y1, x2, y2, colour, extra=""):
    return f'<line x1="{x1:.0f}" y1="{y1:.0f}" x2="{x2:.0f}" y2="{y2:.0f}" stroke="{colour}" {extra}/>'


def costliest(found, call, rows, side):
    return max(value[side] for (name, _, n), value in found.items() if name == call and n == rows)


def grid():
    for power in range(1, 7):
        yield line(LEFT, up(10**power), RIGHT, up(10**power), GRID)
        yield text(LEFT - 10, up(10**power) + 4, f"{10**power:,}", GREY, "end")
    for rows in ROWS:
        yield line(across(rows), TOP, across(rows), BOTTOM, GRID)
        yield text(across(rows), BOTTOM + 18, f"{rows:,}", GREY, "middle")
    yield text((LEFT + RIGHT) / 2, BOTTOM + 36, "rows in the table", GREY, "middle")


def curves(found):
    """One a call; names at the right, moved apart where they would meet."""
    yield text(16, 28, "Instructions a call, costliest shape", weight="bold", size=15)
    yield text(16, 48, "whole: the library; dashed: tuned Rust", GREY)
    yield from grid()
    lowest = HEIGHT
    for call, colour in COLOURS.items():
        for side, extra in ((1, 'stroke-width="1.5" stroke-dasharray="4 4"'), (0, 'stroke-width="2.5"')):
            points = " ".join(f"{across(n):.0f},{up(costliest(found, call, n, side)):.0f}" for n in ROWS)
            yield f'<polyline points="{points}" fill="none" stroke="{colour}" {extra}/>'
        lowest = min(lowest - 16, up(costliest(found, call, 1024, 0)) + 4)
        yield text(RIGHT + 10, lowest, call, colour, weight="bold")


def bars(found):
    """Ratios at 1,024 rows and 1,024 slots."""
    left, unit, pitch, y = 640, 105, 16, 70
    yield text(500, 28, "1,024 rows: the library's instructions / tuned Rust's", weight="bold", size=15)
    for ratio in (0, 1, 2):
        yield line(left + unit * ratio, 60, left + unit * ratio, HEIGHT - 20, INK if ratio == 1 else GRID)
        yield text(left + unit * ratio, 52, ratio, GREY, "middle")
    for call in CALLS:
        shapes = [shape for shape in SHAPES if (call, shape, 1024) in found]
        for shape in shapes:
            ours, tuned = found[call, shape, 1024]
            end = left + unit * ours / tuned
            yield text(left - 8, y + 10, call if shape == "-" else f"{call} {shape}", INK, "end", size=11)
            yield f'<rect x="{left}" y="{y}" width="{end - left:.0f}" height="{pitch - 4}" fill="{COLOURS[call]}"/>'
            yield text(end + 6, y + 10, f"{ours / tuned:.2f}", GREY, size=11)
            y += pitch


def main():
    with open(sys.argv[1], encoding="utf-8") as file:
        found = cells(file)
    print(f'<svg xmlns="http://www.w3.org/2000/svg" viewBox="0 0 {WIDTH} {HEIGHT}" width="{WIDTH}" height="{HEIGHT}" '
          'font-family="Helvetica, Arial, sans-serif">')
    print(f'<rect width="{WIDTH}" height="{HEIGHT}" rx="8" fill="{PAPER}"/>')
    print("\n".join([*curves(found), *bars(found)]))
    print("</svg>")


if __name__ == "__main__":
    main()
