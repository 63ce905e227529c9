#!/usr/bin/env python3
"""Holds the numbers of the refusals, their names and each call's order to the table of docs/REPLIES.md, wherever else they are told.

  refusals.py              one line for each thing that is wrong, then 'N passed, M failed'
  refusals.py --self-test  tells wrong numbers in samples of each place
"""
import re
import sys
from pathlib import Path

TOP = Path(__file__).resolve().parent.parent
SOURCE = "docs/REPLIES.md"
# The columns that are not lirvedd_COLUMN for C, and the function of each in Rattle.
IN_RATTLE = {"list": "list", "read": "read_command", "write": "write_line"}
# Where the rules have a call's conditions: the case of a call, or the definition; and where they have its tests, less 2 and 3.
CONDITIONS = {"open": "opening", "take_class": "taking", "send": "sending", "seal": "sealing", "total": "totalling", "mark": "marking",
              "substitute": "substitute_given", "list": "list_given", "read": "read_given"}
TESTS = {"take_class": "take_tests"} | {call: f"{call}_tests" for call in ("open", "send", "seal", "total", "mark")}


def rows(page, column):
    """The lines of a page's table whose head has this column, as cells by column."""
    head = None
    for line in page.splitlines():
        cells = [cell.strip() for cell in line.strip().strip("|").split("|")]
        if not line.startswith("|"):
            head = None
        elif head is None:
            head = cells
        elif column in head and not cells[0].startswith("---"):
            yield dict(zip(head, cells))


class Source:
    """The table of docs/REPLIES.md: a condition and perhaps a name in C for each number, and each call's numbers in order."""

    def __init__(self, page):
        table = list(rows(page, "condition"))
        self.conditions = {int(row["number"]): re.sub(r" \(.*\)", "", row["condition"]) for row in table}
        self.names = {int(row["number"]): row["name in C"].strip("`") for row in table if row["name in C"]}
        self.orders, self.gaps = {}, []
        for column in list(table[0])[3:]:
            places = sorted((int(row[column][:-2]), int(row["number"])) for row in table if row[column])
            if [place for place, _ in places] != list(range(1, len(places) + 1)):
                self.gaps.append(f"the order of {column} has a gap")
            self.orders.update((call, [number for _, number in places]) for call in column.split(", "))


def differ(what, told, meant):
    """A line for each key at which two dictionaries differ."""
    for key in [key for key in told | meant if told.get(key) != meant.get(key)]:
        yield f"{what} {key}: {told.get(key)} instead of {meant.get(key)}"


def numbers(text):
    return [int(n) for n in re.findall(r"\d+", text)]


def wrong_in_header(text, source):
    enum = text[text.index("enum lirvedd_refusal_number"):].split("}")[0]
    yield from differ("the name of", {int(n): name for name, n in re.findall(r"^    (LIRVEDD_\w+) = ([1-9]\d*)", enum, re.M)}, source.names)
    calls = {call: numbers(refused) for refused, call in re.findall(r"^ \*   refused  (.*)\n \*/\nuint64_t lirvedd_(\w+)\(", text, re.M)}
    yield from differ("the refusals of", calls, {call: order for call, order in source.orders.items() if call not in IN_RATTLE})
    alone = re.findall(r"([\d ,and]+) are for callers in Rattle", text)
    yield from differ("not from", {"C": numbers("".join(alone))}, {"C": [n for n in source.conditions if n not in source.names]})


def wrong_in_firmware(text, source):
    yield from differ("the name of", {int(row["number"]): row["name"].strip("`") for row in rows(text, "what to do")}, source.names)


def wrong_in_lines(text, source):
    told = {row["call"].split("(")[0].strip("`"): numbers(row["refusals"]) for row in rows(text, "refusals")}
    meant = {function: source.orders[column] for column, function in IN_RATTLE.items() if column in source.orders}
    yield from differ("the refusals of", {function: order for function, order in told.items() if order}, meant)


def wrong_in_second(text, source):
    told = {int(n): said[0].lower() + said[1:] for said, n in re.findall(r"^    /// (.*)\.\n    \w+ = (\d+),", text, re.M)}
    yield from differ("the condition of", told, source.conditions)


def wrong_in_variants(text, source):
    """Of the library's own enum: a variant for each number, by its name in C where it has one."""
    variants = re.findall(r"(?:Refusal::|refusal_number )(\w+) =>? (\d+)", text)
    told = {int(n): "LIRVEDD" + re.sub("(?=[A-Z])", "_", name).upper() for name, n in variants}
    yield from differ("the name of", told, {n: source.names.get(n, told.get(n, "a variant")) for n in source.conditions})


def clauses(text):
    """(name, head, body) of each clause of the rules' definitions."""
    joined = re.sub(r"\n +", " ", re.sub(r"--.*", "", text))
    return [(head.split()[0], head, body) for head, body in re.findall(r"^(\w+(?: [^=\n:]*)?) = (.*)$", joined, re.M)]


def order(body, known):
    """The numbers in a body, in order: those given, and those of the definitions that it names."""
    for number, name in re.findall(r"(?:gives|⇒|when) (\d+)|(?<![.\w])([a-z]\w*)", body):
        yield from [int(number)] if number else known.get(name, [])


def orders(text):
    """(words of the head, numbers) of each clause that has some. A name of one clause stands for its numbers; a clause of several,
    as a call's, has those too that its user puts in front, as if_sound does."""
    defined = clauses(text)
    names = [name for name, _, _ in defined]
    known = {name: found for name, _, body in defined if names.count(name) == 1 and (found := list(order(body, {})))}
    for name, head, body in defined:
        if found := list(order(body, known)):
            uses = re.compile(rf"\b{name}\b")
            users = [b for user, _, b in defined if user != name and name not in known and uses.search(b) and list(order(b, known))]
            yield re.findall(r"\w+", head), list(order(users[0], known | {name: found})) if users else found


def wrong_in_rules(words, less):
    """A check of the rules' orders, each found by a word of its head, less the numbers that stand elsewhere."""
    def check(text, source):
        told = list(orders(text))
        for call, word in words.items():
            found = [numbers for head, numbers in told if word in head]
            yield from differ("the refusals of", {word: found}, {word: [[n for n in source.orders[call] if n not in less]]})
    return check


PLACES = {
    "include/lirvedd.h": wrong_in_header,
    "docs/FIRMWARE.md": wrong_in_firmware,
    "docs/LINES.md": wrong_in_lines,
    "tests/rust/src/refusal.rs": wrong_in_second,
    "crates/refusals/src/lib.rt": wrong_in_variants,
    "crates/refusals/specs/Refusals.antt": wrong_in_variants,
    "crates/rules/specs/Conditions.antt": wrong_in_rules(CONDITIONS, []),
    "crates/rules/specs/Calls.antt": wrong_in_rules(TESTS, [2, 3]),
}


def wrong(texts):
    """What is wrong in the texts of the source and the places."""
    source = Source(texts[SOURCE])
    found = {SOURCE: source.gaps}
    return found | {path: list(check(texts[path], source)) for path, check in PLACES.items()}


def tree():
    return {path: (TOP / path).read_text(encoding="utf-8") for path in (SOURCE, *PLACES)}


def report():
    found = wrong(tree())
    for path, what in found.items():
        for line in what:
            print(f"refusals: {path}, {line}")
    failed = sum(map(bool, found.values()))
    print(f"{len(found) - failed} passed, {failed} failed")
    return not failed


# In a copy of the tree's texts each of these makes one thing wrong: a place, a text in it, and the text instead.
FAULTS = [
    (SOURCE, "| 6 | `LIRVEDD_BAD_WEIGHT`", "| 21 | `LIRVEDD_BAD_WEIGHT`"),
    (SOURCE, "4,095 | 2nd |", "4,095 | 3rd |"),
    ("include/lirvedd.h", "LIRVEDD_BAD_WEIGHT = 6", "LIRVEDD_BAD_WEIGHT = 7"),
    ("include/lirvedd.h", "LIRVEDD_TABLE_FULL = 9", "LIRVEDD_FULL = 9"),
    ("include/lirvedd.h", "refused  2, 3, 5, 13, 6, 7, 8, 9", "refused  2, 3, 5, 6, 13, 7, 8, 9"),
    ("include/lirvedd.h", "LIRVEDD_SEALED = 13", "LIRVEDD_SEALED = 12"),
    ("include/lirvedd.h", "LIRVEDD_BAD_CLASS = 14", "LIRVEDD_BAD_CLASS = 15"),
    ("include/lirvedd.h", "refused  2, 3, 5, 13, 6, 7, 14, 8, 9", "refused  2, 3, 5, 13, 6, 7, 8, 14, 9"),
    ("include/lirvedd.h", "refused  2, 3, 5, 10, 11", "refused  2, 3, 5, 10"),
    ("include/lirvedd.h", "1 and 12 are for callers", "1 and 11 are for callers"),
    ("docs/FIRMWARE.md", "| 8 | `LIRVEDD_NO_TICKET_LEFT`", "| 9 | `LIRVEDD_NO_TICKET_LEFT`"),
    ("docs/FIRMWARE.md", "`LIRVEDD_BAD_SLOT`", "`LIRVEDD_BAD_WEIGHT`"),
    ("docs/FIRMWARE.md", "| 13 | `LIRVEDD_SEALED`", "| 12 | `LIRVEDD_SEALED`"),
    ("docs/FIRMWARE.md", "| 14 | `LIRVEDD_BAD_CLASS`", "| 14 | `LIRVEDD_CLASS`"),
    ("docs/LINES.md", "| 2, 3, 5, 12 |", "| 2, 3, 12, 5 |"),
    ("docs/LINES.md", "| 1, 12 |", "| 1 |"),
    ("tests/rust/src/refusal.rs", "Over = 5", "Over = 21"),
    ("tests/rust/src/refusal.rs", "    /// Every row is in use.\n    Full = 9,\n", ""),
    ("tests/rust/src/refusal.rs", "    /// The class is above 3.\n    Class = 14,\n", ""),
    ("tests/rust/src/refusal.rs", "The ticket is in no row.", "The ticket's row is not in the plan."),
    ("crates/refusals/src/lib.rt", "Refusal::RoundOver => 5", "Refusal::RoundOver => 21"),
    ("crates/refusals/src/lib.rt", "Refusal::BadWeight => 6", "Refusal::Weightless => 6"),
    ("crates/refusals/specs/Refusals.antt", "refusal_number NoRoom = 12\n", ""),
    ("crates/refusals/specs/Refusals.antt", "refusal_number Sealed = 13\n", "refusal_number Sealed = 14\n"),
    ("crates/rules/specs/Conditions.antt", "gives 4", "gives 5"),
    ("crates/rules/specs/Conditions.antt", "(Unsound t gives 3) ∷ cs", "cs"),
    ("crates/rules/specs/Conditions.antt", "(NoRow k t gives 10) ∷ (NotPlanned k t gives 11)",
     "(NoRow k t gives 11) ∷ (NotPlanned k t gives 10)"),
    ("crates/rules/specs/Conditions.antt", "question_conditions totalling t = (Past t gives 5) ∷ []\n", ""),
    ("crates/rules/specs/Conditions.antt", "when 1 (", "when 2 ("),
    ("crates/rules/specs/Calls.antt", "⇒ 8)", "⇒ 9)"),
    ("crates/rules/specs/Calls.antt", "over t l ∷ not_ahead t l s", "not_ahead t l s ∷ over t l"),
]


def self_test():
    texts = tree()
    missed = [f"{path}, {old!r} does not stand there once" for path, old, _ in FAULTS if texts[path].count(old) != 1]
    for path, old, new in FAULTS:
        found = wrong(texts | {path: texts[path].replace(old, new)})
        if not (any(found.values()) if path == SOURCE else found[path]):
            missed.append(f"{path}, {new!r} for {old!r} is not noticed")
    for line in missed:
        print(f"refusals: sample {line}")
    print(f"{len(FAULTS) - len(missed)} passed, {len(missed)} failed")
    return not missed


if __name__ == "__main__":
    sys.exit(0 if (self_test() if sys.argv[1:] == ["--self-test"] else report()) else 1)
