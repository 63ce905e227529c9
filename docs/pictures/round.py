#!/usr/bin/env python3
"""round.py VALUES: draws what round.c prints, a round before a sending and after it."""
import sys

WIDTH, LEFT, COLUMN, ROW, TOP, NOTES = 960, 90, 72, 26, 64, 690
BLUE, ORANGE, GREEN, GREY, INK, PAPER = "#3b6ea5", "#d9730d", "#3a7d44", "#666666", "#222222", "#ffffff"
SHADES = ("#eef2f7", "#dfe7f0")


def read(lines):
    """Two views of the round, and what was sent between them."""
    views, sent = [], None
    for line in lines:
        word, *numbers = line.split()
        numbers = [int(number) for number in numbers]
        if word == "round":
            views.append({"slot": numbers[0], "last": numbers[1], "rows": [], "marks": {}})
        elif word == "row":
            views[-1]["rows"].append(dict(zip(("ticket", "due", "weight", "planned", "substitute"), numbers)))
        elif word == "mark":
            views[-1]["marks"][numbers[0]] = numbers[1]
        else:
            sent = numbers[0]
    return views, sent


def tight_slots(view):
    """Blanks fill what the plan's rows leave free, so a slot is tight where no later one has less free."""
    slots = range(view["slot"], view["last"] + 1)
    by = {s: sum(row["planned"] and row["due"] <= s for row in view["rows"]) for s in slots}
    free = {s: s - view["slot"] + 1 - by[s] for s in slots}
    return [s for s in slots if all(free[s] <= free[later] for later in slots if later > s)]


class Drawing:
    def __init__(self):
        self.parts = []

    def rect(self, x, y, width, height, fill, extra=""):
        self.parts.append(f'<rect x="{x}" y="{y}" width="{width}" height="{height}" fill="{fill}" {extra}/>')

    def line(self, x, top, bottom, colour, width):
        self.parts.append(f'<line x1="{x}" y1="{top}" x2="{x}" y2="{bottom}" stroke="{colour}" stroke-width="{width}"/>')

    def text(self, x, y, words, colour=INK, anchor="start", weight="normal", size=13):
        style = f'fill="{colour}" text-anchor="{anchor}" font-weight="{weight}" font-size="{size}"'
        self.parts.append(f'<text x="{x}" y="{y}" {style}>{words}</text>')

    def whole(self, height):
        head = f'<svg xmlns="http://www.w3.org/2000/svg" viewBox="0 0 {WIDTH} {height}" width="{WIDTH}" height="{height}" '
        head += 'font-family="Helvetica, Arial, sans-serif">'
        paper = f'<rect width="{WIDTH}" height="{height}" rx="8" fill="{PAPER}"/>'
        return "\n".join([head, paper, *self.parts, "</svg>"])


def left_of(slot):
    return LEFT + slot * COLUMN


def segments(out, view, y, bottom):
    """Shaded stretches, each up to a tight slot, whose end is a thick line."""
    first = view["slot"]
    tights = tight_slots(view)
    for place, tight in enumerate(tights):
        x, end = left_of(first), left_of(tight + 1)
        out.rect(x, y + 24, end - x, bottom - y - 24, SHADES[place % 2])
        out.text((x + end) / 2, y + 40, "segment", GREY, "middle", size=11)
        first = tight + 1
    for tight in tights:
        out.line(left_of(tight + 1), y + 24, bottom, INK, 3)


def foot(out, view, y):
    """Below each slot ahead its mark, and whether it is tight."""
    tights = tight_slots(view)
    out.text(LEFT - 12, y, "mark", INK, "end")
    out.text(LEFT - 12, y + 18, "tight", INK, "end")
    for slot, mark in view["marks"].items():
        out.text(left_of(slot) + COLUMN / 2, y, mark, INK, "middle", "bold")
        out.text(left_of(slot) + COLUMN / 2, y + 18, "yes" if slot in tights else "-", INK, "middle")


def bar(out, view, row, y, style):
    """A row from the current slot to its due slot; style is its colour and the note beside it."""
    x, end = left_of(view["slot"]) + 4, left_of(row["due"] + 1) - 6
    colour, note, weight = style
    if row["planned"]:
        out.rect(x, y, end - x, ROW - 6, colour, 'rx="4"')
    else:
        out.rect(x, y, end - x, ROW - 6, PAPER, f'rx="4" stroke="{GREY}" stroke-dasharray="4 3"')
    out.text(x + 5, y + 15, f'weight {row["weight"]}', PAPER if row["planned"] else INK, size=12)
    out.text(LEFT - 12, y + 15, f'ticket {row["ticket"]}', INK, "end")
    out.text(NOTES, y + 15, note, colour if row["planned"] else GREY, weight=weight)


def panel(out, titles, view, y, style):
    """One view of the round; returns where it ends."""
    rows = sorted(view["rows"], key=lambda row: (row["due"], -row["weight"], row["ticket"]))
    bottom = y + TOP - 12 + ROW * len(rows)
    out.text(16, y, titles[0], weight="bold", size=15)
    out.text(NOTES, y + 18, titles[1])
    segments(out, view, y, bottom)
    for slot in range(view["last"] + 1):
        out.text(left_of(slot) + COLUMN / 2, y + 18, f"slot {slot}", GREY if slot < view["slot"] else INK, "middle")
    for place, row in enumerate(rows):
        bar(out, view, row, y + TOP - 16 + ROW * place, style(row))
    foot(out, view, bottom + 18)
    return bottom + 36


def before_style(view, sent):
    """Beside each plan row its score; the greatest goes."""
    weights = {row["ticket"]: row["weight"] for row in view["rows"]} | {0: 0}

    def style(row):
        if not row["planned"]:
            return GREY, "left out", "normal"
        other = weights[row["substitute"]]
        score = f'{row["weight"]} + 1.618 × {other} = {row["weight"] + 1.618 * other:.1f}'
        return (ORANGE, score + ": goes out", "bold") if row["ticket"] == sent else (BLUE, score, "normal")
    return style


def after_style(before):
    """Beside each row what the leap changed."""
    old = {row["ticket"]: row for row in before["rows"]}

    def style(row):
        was = old[row["ticket"]]
        notes = [f"{name} was {was[key]}" for name, key in (("due slot", "due"), ("weight", "weight")) if was[key] != row[key]]
        if notes:
            return GREEN, ", ".join(notes), "bold"
        return BLUE, "" if row["planned"] else "left out", "normal"
    return style


LEGEND = (
    "A bar is a waiting frame, up to its due slot. Blue: in the plan. Dashed: left out. A thick line ends a tight slot. The mark is what a",
    "newcomer due there must outweigh. Ticket 3 is due after the first tight slot, so it goes by a leap: ticket 5 moves forward, and it",
    "and ticket 7, the substitute, are raised to marks, so that no mark sinks.",
)


def main():
    with open(sys.argv[1], encoding="utf-8") as file:
        (before, after), sent = read(file)
    out = Drawing()
    y = panel(out, ("Slot 0 is about to be sent", "weight + 1.618 × substitute's"), before, 30, before_style(before, sent))
    y = panel(out, ("After slot 0", "changed by the leap"), after, y + 48, after_style(before))
    for place, words in enumerate(LEGEND):
        out.text(16, y + 36 + 18 * place, words, GREY, size=12)
    print(out.whole(y + 88))


if __name__ == "__main__":
    main()
