//! The third demand by brute force, on small rounds and drawn lists of calls.

use second::call::Call;
use second::compare::classes::{taking, Classes};
use second::compare::draw::Draw;
use second::counts::Slot;
use second::faults;
use second::plan::Plan;
use second::round::{Round, Row};
use second::rules::Rules;
use second::table::{decode, row_at};

/// Whether these rows can be given slots, no two the same, each from the
/// current slot to the row's due slot.
fn in_time(rows: &[Row], slot: u32, given: u32) -> bool {
    let Some((row, rest)) = rows.split_first() else {
        return true;
    };
    let free = |s: &u32| given & 1 << s == 0;
    let mut slots = (slot..=row.due.0).filter(free);
    slots.any(|s| in_time(rest, slot, given | 1 << s))
}

/// The most that a set of waiting rows weighs that could go out in time.
fn heaviest_set(round: &Round) -> u64 {
    let sets = 0..1u32 << round.rows.len();
    let chosen = |set: u32| -> Vec<Row> {
        let rows = round.rows.iter().enumerate();
        let inside = rows.filter(|(place, _)| set >> place & 1 == 1);
        inside.map(|(_, row)| *row).collect()
    };
    let weighs = |rows: &[Row]| rows.iter().map(|row| u64::from(row.weight.0)).sum();
    let good = sets
        .map(chosen)
        .filter(|rows| in_time(rows, round.slot.0, 0));
    good.map(|rows| weighs(&rows)).max().expect("the empty set")
}

/// The plan's rows could all go out in time and weigh the total, and no set
/// of waiting rows that could do so weighs more; the plan fills every slot.
fn plan_is_best(second: &Rules, table: &[u8]) -> bool {
    let round = decode(table);
    let plan = Plan::of(&round, second);
    let tickets = plan.members.iter().filter_map(|item| item.ticket);
    let rows: Vec<Row> = tickets
        .map(|ticket| round.rows[round.place(ticket).expect("a waiting row")])
        .collect();
    let ahead = (round.last.0 + 1).saturating_sub(round.slot.0) as usize;
    let answered = match second.total(table) {
        Ok(total) => total == plan.total(),
        Err(refusal) => refusal.number() == 5 && plan.total() == 0 && ahead == 0,
    };
    let best = plan.total() == heaviest_set(&round);
    answered && best && in_time(&rows, round.slot.0, 0) && plan.members.len() == ahead
}

/// The marks of the slots still ahead, each with its slot.
fn marks(second: &Rules, table: &[u8]) -> Vec<(u32, u32)> {
    let round = decode(table);
    let mark = |s| second.mark(Slot(s), table).expect("a mark").0;
    let ahead = round.slot.0..=round.last.0;
    ahead.map(|s| (s, mark(s))).collect()
}

/// No mark of a slot still ahead sinks.
fn marks_hold(before: &[(u32, u32)], after: &[(u32, u32)]) -> bool {
    let old = |slot: u32| {
        before
            .iter()
            .find(|(s, _)| *s == slot)
            .expect("it was ahead")
            .1
    };
    after.iter().all(|(slot, mark)| *mark >= old(*slot))
}

/// An accepted newcomer adds just what it weighs above its due slot's mark.
fn newcomer_adds(second: &Rules, before: &[u8], after: &[u8], due: u32, weight: u32) -> bool {
    let mark = second.mark(Slot(due), before).expect("a mark").0;
    let total = |table: &[u8]| second.total(table).expect("a total");
    total(after) == total(before) + u64::from(weight.saturating_sub(mark))
}

/// A weight of up to the most, in some lists less the later it is due but for
/// a few heavy ones: so come long leaps.
fn weight(draw: &mut Draw, most: u32, falling: bool, later: u32) -> u32 {
    if !falling {
        return draw.between(0, most);
    }
    let heavy = if draw.once_in(5) { 4 } else { 1 };
    heavy * (most / (later + 1) + draw.between(0, 2))
}

/// A call with arguments mostly good, sometimes not.
fn drawn(draw: &mut Draw, most: u32, falling: bool, table: &[u8]) -> Call {
    let round = decode(table);
    let due = draw.between(round.slot.0.min(round.last.0), round.last.0 + 1);
    let later = due.saturating_sub(round.slot.0);
    match draw.below(16) {
        0..=9 => {
            let weight = weight(draw, most, falling, later);
            taking(draw, due, weight, Classes::Any)
        }
        10 => Call::Mark { slot: due },
        11 => Call::Total,
        12 => Call::Open { last: 4_096 },
        13 if draw.once_in(8) => Call::Seal,
        _ => Call::Send,
    }
}

/// One call of a list, and what the demand says of it.
fn holds(second: &Rules, call: Call, table: &mut [u8]) -> bool {
    let before = table.to_vec();
    let reply = second.answer(call, table);
    let refused = reply & 0xFF != 0;
    let grows = match call {
        _ if refused => *table == before[..],
        Call::Take { due, weight } | Call::TakeClass { due, weight, .. } => {
            newcomer_adds(second, &before, table, due, weight)
        }
        _ => true,
    };
    let hold = marks_hold(&marks(second, &before), &marks(second, table));
    grows && hold && plan_is_best(second, table)
}

/// Whether the demand holds over a whole drawn list.
fn list_holds(second: &Rules, seed: u64) -> bool {
    let mut draw = Draw::new(seed);
    let mut table = vec![0xEE; row_at(1 + draw.below(8) as usize)];
    let last = draw.below(6) as u32;
    second.answer(Call::Open { last }, &mut table);
    let most = *draw.pick(&[2, 5, 30]);
    let falling = draw.once_in(2);
    (0..18).all(|_| {
        let call = drawn(&mut draw, most, falling, &table);
        holds(second, call, &mut table)
    })
}

#[test]
fn lists_of_calls() {
    for seed in 0..20_000 {
        assert!(list_holds(Rules::PAPERS, seed), "seed {seed}");
    }
}

/// Leaps that leave out a part of their work break the demand on such lists.
#[test]
fn the_lists_are_hard_enough() {
    for name in [
        "RNotRaised",
        "HNotShifted",
        "HNotRaised",
        "OneShiftOnly",
        "BlankDropped",
        "LeapChangesNothing",
        "MarkInSegmentAlone",
    ] {
        let second = faults::with(name);
        let broken = (0..20_000).find(|seed| !list_holds(&second, *seed));
        assert!(broken.is_some(), "{name}");
    }
}
