#!/usr/bin/env python3
"""tests/large_cases.py DIR: writes the cases that are too large to keep, as DIR/NAME/stdin and stdout.

tests/cases/README.md says why each output is what it is.
"""
import sys
from pathlib import Path

ROWS = 1024
SLOTS = 4096
SILENCE = "02000000000000"


def take(due, weight):
    return f"01{due:04X}{weight:08X}"


def take_of_class(due, weight, of_class):
    return f"04{due:04X}{weight:08X}{of_class:02X}"


def ticket(number):
    return f"01{number:08X}"


def frame(number):
    return f"020100{number:08X}"


def text(lines):
    return "".join(line + "\n" for line in lines).encode()


def full_table():
    """One frame more than rows, all due in slot 0; then refusals 6, 7 and 14, which come before 9; then a sending."""
    lines = ["000FFF"] + [take(0, 1)] * (ROWS + 1)
    lines += [take_of_class(0, 1, 3), take(0, 0), take(SLOTS, 1), take_of_class(0, 1, 4), "02", take(1, 1), "02"]
    tickets = [ticket(number) for number in range(1, ROWS + 1)]
    replies = ["00"] + tickets + ["FF09", "FF09", "FF06", "FF07", "FF0E", frame(1), ticket(ROWS + 1), frame(ROWS + 1)]
    return text(lines), text(replies)


def full_table_played_out():
    """A frame due in each of 1,024 slots, one more refused before and one taken after the first sending."""
    lines = ["0003FF"] + [take(due, 7) for due in range(ROWS)] + [take(ROWS - 1, 9), "02", take(ROWS - 1, 7)]
    lines += ["02"] * ROWS
    replies = ["00"] + [ticket(number) for number in range(1, ROWS + 1)] + ["FF09", frame(1), ticket(ROWS + 1)]
    replies += [frame(number) for number in range(2, ROWS + 1)] + ["FF05"]
    return text(lines), text(replies)


def full_table_sealed():
    """A frame due in each of 1,024 slots, ever heavier, and sealed: 13 comes before 9, and each goes out in its due slot."""
    lines = ["0003FF"] + [take(due, 1 + due) for due in range(ROWS)] + [take(ROWS - 1, 9), "03", take(ROWS - 1, 9)]
    lines += ["02"] * (ROWS + 1)
    replies = ["00"] + [ticket(number) for number in range(1, ROWS + 1)] + ["FF09", "03", "FF0D"]
    replies += [frame(number) for number in range(1, ROWS + 1)] + ["FF05"]
    return text(lines), text(replies)


def longest_round():
    """The longest round, nothing taken."""
    return text(["000FFF"] + ["02"] * (SLOTS + 1)), text(["00"] + [SILENCE] * SLOTS + ["FF05"])


def many_openings():
    return text(["000FFF"] * 10_000 + ["02"]), text(["00"] * 10_000 + [SILENCE])


def after_opening(line):
    """An opening, a line that breaks the rules, and a sending that is no longer replied to."""
    return b"000000\n" + line + b"\n02\n", text(["00", "FF01"])


CASES = {
    "full_table": full_table(),
    "full_table_played_out": full_table_played_out(),
    "full_table_sealed": full_table_sealed(),
    "longest_round": longest_round(),
    "many_openings": many_openings(),
    "line_of_100000_digits": after_opening(b"01" + b"0" * 99_998),
    "line_of_100000_NULs": after_opening(bytes(100_000)),
    "line_of_a_million_digits": after_opening(b"02" + b"A" * 999_998),
    "unended_100000_digits": (b"000000\n01" + b"F" * 99_998, text(["00", "FF01"])),
}


def main():
    for name, (given, wanted) in CASES.items():
        case = Path(sys.argv[1]) / name
        case.mkdir(parents=True)
        (case / "stdin").write_bytes(given)
        (case / "stdout").write_bytes(wanted)


if __name__ == "__main__":
    main()
