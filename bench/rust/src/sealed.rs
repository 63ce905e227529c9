//! Sending a slot of a sealed round: the plan's first row in canonical order. Where the rows do not fill the first slot, a blank is due
//! before them all, and nothing goes.

use crate::count::{Counts, Load};
use crate::plan::{ahead_in, Index, Plan, OUTSIDE};
use crate::send::Step;
use crate::table::{class, due, weight, Row};

#[inline(always)]
pub fn step<const N: usize>(rows: &[Row], slot: u32, counts: &mut Counts<N>, load: &Load) -> Step {
    let index = match load.left_out {
        0 => first_of_all(rows),
        _ => first_planned(rows, slot, counts, load),
    };
    Step::of(rows, index, false)
}

/// Where every row is in the plan: the earliest due; among these the heaviest; of these the smallest class; among equals the first.
#[inline(always)]
fn first_of_all(rows: &[Row]) -> usize {
    let (mut first, mut heaviest, mut at) = (u32::MAX, 0, 0);
    for (index, row) in rows.iter().enumerate() {
        let due = due(row);
        if due <= first && (due < first || heaviness(row) > heaviest) {
            (first, heaviest, at) = (due, heaviness(row), index);
        }
    }
    at
}

/// Among rows of one due slot the heavier has the greater.
#[inline(always)]
fn heaviness(row: &Row) -> u32 {
    weight(row) << 2 | class(row) ^ 3
}

#[inline(always)]
fn first_planned<const N: usize>(
    rows: &[Row],
    slot: u32,
    counts: &mut Counts<N>,
    load: &Load,
) -> usize {
    let mut index = Index::<N>::none();
    let placed = |place, at| index.put(place, at);
    let mut plan = Plan::sorted(rows, slot, counts, load, placed, |_, _| ());
    plan.leave_out(load.left_out);
    index.of(first(&plan))
}

/// The greatest key of the earliest slot in which a row of the plan is due.
#[inline(always)]
fn first<const N: usize>(plan: &Plan<N>) -> u64 {
    let mut keys = plan.keys().iter().rev().filter(|key| **key < OUTSIDE);
    let mut first = keys.next().copied().unwrap_or(0);
    for key in keys {
        if ahead_in(*key) != ahead_in(first) {
            break;
        }
        first = first.max(*key);
    }
    first
}
