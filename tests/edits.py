#!/usr/bin/env python3
"""Writes docs/EDITS.md: every must-fail edit, with what the wrong program does, told by the edit's first line, `# ..`.

  edits.py          writes it
  edits.py --check  fails if it is not what would be written, or an edit has no first line of at most 110 characters
"""
import re
import sys
from pathlib import Path

TOP = Path(__file__).resolve().parent.parent
DOC = TOP / "docs" / "EDITS.md"

INTRODUCTION = """# Wrong programs, and that each is refused

An edit, crates/CRATE/must-fail/NAME.edit, makes the program or a definition wrong in one place: it names a file of its crate, a text that
stands there once, and the text instead. To try one by hand, make that change, run `rt check` in the crate's folder, and undo it;
`rt must-fail CRATE` tries all edits of a crate, each on a copy. An edit is *refused for a fact* when the prover meets a goal that holds no
more, or two values that differ; `./test` tries every edit and fails where one is bad, or was refused only because a proof no longer fits the
text, as far as `rt` tells (tests/must_fail_logs.py).

This page is written by tests/edits.py from the first lines of the edits.
"""

# The nearest is another program, not an edit of this one: it is proved that it sends otherwise.
PLAYED_OUT = "`played_out_misses`, `canonical_first_differs`, `no_order_serves` in crates/theory/specs/PlayedOut.antt; "
OVER = "checks/over_in_the_last_slot rules/last_slot_over"
TURNED_DOWN = " ".join(f"{call}/every_{call}_turned_down" for call in ("opening", "taking", "sending", "sealing"))

BREAKAGES = [
    ("a sender that plans the first slot and plays that plan out afterwards (demand 2)",
     "rules/canonical_first"),
    ("a listing whose count is not the plan's rows (2)", "listing/list_count_of_all_rows order/rows_left_out_are_listed"),
    ("a table reported full with a row free, or a round reported over in its last slot (1)", "checks/full_with_a_row_free " + OVER),
    ("a sender always silent (2)", "sender/always_silent sender/silence_with_a_row_waiting"),
    ("a taker that gives a ticket but stores nothing (2 and 3)", "taking/ticket_but_nothing_stored"),
    ("a station that turns every call down (1 and 2)", TURNED_DOWN),
]

KINDS = [
    ("a sender always silent", "sender/always_silent"),
    ("the canonical first instead of the pick", "segments/canonical_first rules/canonical_first"),
    ("the heaviest instead of the pick", "lead/the_heaviest_goes rules/the_heaviest_goes"),
    ("φ by a smaller Fibonacci pair", "lead/smaller_fibonacci_pair rules/golden_ratio_near"),
    ("r raised without shifting the h frames", "chain/links_not_shifted"),
    ("a raised blank dropped", "went/raised_blank_dropped rules/raised_blank_dropped"),
    ("the lightest instead of the heaviest h", "chain/lightest_links rules/lightest_shifted"),
    ("a mark that ignores the first tight slot", "every/mark_ignores_the_first_tight_slot"),
    ("a substitute from before the tight slot", "marks/substitute_from_before_the_tight_slot"),
    ("a sender that forgets to move the slot on", "closing/slot_not_moved_on"),
    ("an expired row left in", "closing/expired_row_left_in"),
    ("refusals 10 and 11 exchanged", "substituting/ten_and_eleven_exchanged rules/ten_and_eleven_exchanged"),
    ("refusal 5 given in the last slot", OVER),
    ("a listing whose count is not the plan's rows", "listing/list_count_of_all_rows"),
    ("a listing with a count of 0", "listing/list_count_of_0 rules/list_count_of_0"),
    ("a listing that touches an entry past the count", "listing/list_past_the_count rules/entries_past_the_count_changed"),
    ("canonical order broken among equals", "keys/later_ticket_first rules/tie_by_larger_ticket"),
    ("a reader that takes lower-case digits", "digits/lower_case_digits_read"),
    ("a payload off by one digit", "lines/payload_off_by_one_digit"),
    ("a payload taken from a refused line", "lines/payload_of_a_refused_line"),
    ("a writer that changes a byte on refusal 12", "writer/bytes_changed_on_refusal_12"),
    ("a payload of 50 digits", "digits/payload_of_50_digits rules/payload_of_50_digits"),
    ("a reply line of the wrong step", "replying/step_of_the_wrong_kind saying/leap_said_as_ordinary"),
    ("a kept blank that goes out and stays", "went/sent_row_stays rules/sent_blank_stays"),
    ("a leap's shifts that begin at p's due slot", "rules/shifts_from_ps_due_slot"),
    ("a refusal that changes something", "listing/list_refused_but_written rules/refused_call_writes rules/refused_write_clears"),
    ("a program that writes no reply", "answering/no_reply_written"),
    ("a program that says FF02 for FF01", "answering/refusal_2_for_1 serving/unended_line_gets_refusal_2 rules/reader_refuses_by_2"),
    ("a program that refuses a line split over two reads", "serving/split_line_refused rules/split_line_lost"),
    ("a program that passes over an unended line of one byte", "serving/one_byte_passed_over rules/unended_byte_passed_over"),
    ("a program that goes on after refusal 1", "answering/refusal_1_goes_on rules/refusal_1_goes_on"),
    ("a program whose table is sevens at first", "serving/table_of_sevens rules/table_of_sevens"),
    ("a word that gathers seven bytes", "zeros/seven_bytes_gathered zeros/first_byte_not_gathered rules/number_of_seven_bytes"),
    ("the last word of a row left out", "zeros/last_word_left_out"),
    ("one byte gathered twice and another not", "zeros/byte_gathered_twice numbers/neighbour_not_gathered"),
    ("a kept blank that counts as sent", "rules/kept_blank_counted"),
    ("a sending that ends no slot", "rules/sending_ends_no_slot"),
    ("a rival's frame before the slot of its taking", "rules/frame_before_its_taking"),
    ("two of a rival's frames in one slot", "rules/slot_used_twice rules/most_with_a_slot_twice"),
    ("the most reckoned without a frame, or with one that was refused", "rules/frame_left_out_of_the_most rules/refused_frame_offered"),
    ("the most reckoned without due slots", "rules/due_slot_not_used"),
]

# What the edits of a crate aim at.
CONTRACTS = {
    "rules": "the definitions, held to the rounds, bytes and lines worked out by hand in crates/rules/proofs",
    "sorts": "a head as a value: just opened (`new`), and with one more row (`one_more`)",
    "refusals": "each refusal's number (`refusal_number`), and no two alike (`refusal_read`)",
    "numbers": "numbers in bytes: read (`field`) and written (`low`)",
    "limits": "a table's length (`length_good`), and a head's numbers (`head_tests`)",
    "checks": "each call's refusals in their order (`first_of`)",
    "replies": "each call's result read as document 01's number and values, and no two results as one (`opened_read` and its like)",
    "packing": "each reply packed (`pack`), and read back (`Unpacks`)",
    "zeros": "`zeros_from`: all bytes from a place on are zero; `word`: 0 exactly when its eight bytes are",
    "seen": "`row_follows`, `numbers_pass`, `words_pass`, `frames_pass`, `goes_with`: what is asked of the rows so far, by numbers alone",
    "row": "`see_row` (`Sees`): the judge of one row, by its bytes; its class read and written",
    "head": "`read_head`, `head_is_sound`, `write_head` (`HeadOf`, `head_judged`, `head_numbers`): the head's bytes read, judged, written",
    "kinds": "`all_pass` (`passing`): what is asked once of all rows, their kinds among it",
    "round": "`judge` and `scan` (`JudgeSays`, `ScanSays`): a table is sound, or refused with 2 or 3, and its rows by bucket; `class_at`",
    "picture": "the laws of the segments as a value, held to small rounds by hand",
    "keys": "`key_of` and `order_key_of` (`heavier_key`, `canonical_key`): one number for a row, in either order",
    "buckets": "`reach_of` (`Reaches`): how far rows fill every slot, and how many are left out; `stretch_of` (`Stretches`): a bucket's segment",
    "heap": "`rise` and `sink` (`Grown`, `Replaced`): the lightest row's key on top",
    "queue": "`starts` (`Started`) and `sort` (`Sorting`): the near rows' keys in due order, and the heaviest far row's",
    "leaving": "`leave_out` (`Parted`): the flags of the rows that stay, and the weight of those that leave",
    "plan": "`plan_of` (`Plans`): the plan's flags and keys, with what is lost and the heaviest far row",
    "lead": "`score_of` (`score`), `close_segment` (`closed`), `ends_here` (`ends_here`): one segment closed, and the one that leads",
    "segments": "`segments_of` (`SegmentsSay`): each near segment's end, heaviest and lightest, and the one whose heaviest row goes",
    "passes": "`heaviest` (`Heaviest`) and `look` (`Looks`): the heaviest row, a segment's heaviest and lightest, and a mark",
    "whole": "`choose_whole` (`Picked`): the row that goes where no row is left out",
    "runs": "`move_run`: a run of rows, in its bytes, moved down behind the rows kept",
    "closing": "`close_up` (`closed_up`): the bytes once the slot has moved on",
    "chain": "`lower_marks` (`Lowered`) and `shift_chain` (`Shifts`): a leap's marks, and the bytes once its links have moved",
    "went": "`send_row`, `send_kept` (`SentSays`): what went out, and the bytes left",
    "leap": "`send_swapped` (`SentSays`): what went out in a leap, and the bytes left",
    "step": "`send_planned` (`SentSays`): the row that goes, from near or afar",
    "first": "`first_of_all` (`IsFirst`): the plan's canonical first where no row is left out",
    "flagged": "`first_planned` (`FirstSays`): the plan's canonical first where rows are left out",
    "crowded": "`send_in_arrays` (`SentSays`): a slot where rows are left out of the plan",
    "sender": "`send_sound` (`SentSays`): a slot of any sound table",
    "far": "`substitute_far` (`Substitutes`): the blank where a far row's segment begins",
    "every": "`mark_every` (`mark`) and `substitute_every` (`Substitutes`): the answers where no row is left out",
    "questions": "`ask_plan`: what those who ask a plan are lent of it",
    "marks": "marks, totals and substitutes read off the plan, equal to `mark`, `total` and `substitute`",
    "order": "`order_of` (`Ordered`): the plan's rows in canonical order",
    "opening": "`open_round` (`Says`): reply and bytes",
    "taking": "`take_frame` (`Says`): reply and bytes",
    "sending": "`send_slot` (`Says`): reply and bytes",
    "sealing": "`seal_round` (`Says`): reply and bytes",
    "marking": "`mark_of` (`Says`): reply and bytes",
    "totalling": "`plan_total` (`Says`): reply and bytes",
    "substituting": "`substitute_of` (`Looks`): the reply; and the bytes as they were",
    "listing": "`list` (`Lists`): reply and entries, by view",
    "station": "each exported call: the packed reply and the bytes (`Exports`, `ExportsLook`)",
    "digits": "`number` (`spelt`), `digits_only` (`all_digits`), `payload_fits` (`payload_fits`), `put_number` (`digits`)",
    "forms": "`form_of` (`HasForm`), `command_of` (`command_of`), `line_number` (`line_number`), `values_of` (`HasValues`)",
    "lines": "`read_command` (`read`), `payload` (`PayloadPart`), `line_end` (`LineEnds`)",
    "writer": "`write_line` (`Writes`): the reply, and each byte of the buffer",
    "replying": "the writers of reply lines (`Replies`): the line's length, and each byte of the buffer",
    "saying": "`say`, `say_refusal` (`Replies`): the line of a call's reply, and each byte of the buffer",
    "turns": "`take_turn_in_room` (`Turns`): a command's call on the table, and its reply's line",
    "answering": "`answer_lines_in_room` (`Answers`): the complete lines of a buffer, their replies and their calls on the table",
    "serving": "`serve_in_room` (`Serves`): one read, and every byte it leaves; `fresh_table`",
}


def first_lines():
    """What each edit says of itself, by crate/label."""
    said = {}
    for path in sorted(TOP.glob("crates/*/must-fail/*.edit")):
        first = path.read_text(encoding="utf-8").splitlines()[0]
        if not re.fullmatch(r"# .{1,110}", first):
            sys.exit(f"edits: {path.relative_to(TOP)} does not begin with a line `# ..` of at most 110 characters")
        said[f"{path.parts[-3]}/{path.stem}"] = first[2:]
    return said


def table(head, rows):
    return "\n".join(f"| {' | '.join(row)} |" for row in [head, ["---"] * len(head), *rows])


def named(wrong, said):
    """Rows of a table: a wrong program, and the edits that are one."""
    for what, edits in wrong:
        missing = [edit for edit in edits.split() if edit not in said]
        if missing:
            sys.exit(f"edits: no edit {', '.join(missing)}")
        yield what, ", ".join(f"`{edit}`" for edit in edits.split())


def page():
    said = first_lines()
    nearest, *others = named(BREAKAGES, said)
    parts = [INTRODUCTION, "## What document 01 names, nearest first\n"]
    parts += [table(("wrong program", "shown by"), [(nearest[0], PLAYED_OUT + nearest[1]), *others]) + "\n"]
    parts += ["## Wrong programs of every kind\n", table(("wrong program", "edits"), named(KINDS, said)) + "\n"]
    for crate in re.findall(r"^(\w+)(?: staticlib)?:", (TOP / "crates.txt").read_text(encoding="utf-8"), re.M):
        rows = [(f"`{edit.split('/')[1]}`", does) for edit, does in said.items() if edit.startswith(crate + "/")]
        if rows:
            parts += [f"## {crate}\n", f"Aimed at: {CONTRACTS[crate]}.\n", table(("edit", "what the wrong program does"), rows) + "\n"]
    return "\n".join(parts)


def main():
    if sys.argv[1:] == ["--check"]:
        if not DOC.is_file() or DOC.read_text(encoding="utf-8") != page():
            sys.exit("edits: docs/EDITS.md is not what tests/edits.py writes")
    else:
        DOC.write_text(page(), encoding="utf-8")


if __name__ == "__main__":
    main()
