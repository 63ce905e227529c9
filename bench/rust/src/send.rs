//! Sending a slot.

use crate::close::close_up;
use crate::count::{Counts, Load, NONE_DUE};
use crate::easy;
use crate::leap::leap;
use crate::plan::{Index, Plan};
use crate::sealed;
use crate::segments::{score, Segments};
use crate::sound::judge;
use crate::table::{
    is_sealed, rank, rows_mut, ticket, weight, Head, Row, KIND, MIDDLE, MIDDLE_ROWS, MOST_ROWS,
    SLOT, SMALL, SMALL_ROWS, USED,
};

/// The heaviest row met so far; among equals the first.
#[derive(Clone, Copy)]
pub struct Heaviest {
    pub weight: u32,
    /// Its due slot and class.
    pub rank: u32,
    pub index: usize,
}

impl Heaviest {
    pub const NONE: Heaviest = Heaviest {
        weight: 0,
        rank: 0,
        index: 0,
    };

    #[inline(always)]
    pub fn see(&mut self, row: &Row, index: usize) {
        let weight = weight(row);
        if weight < self.weight {
            return;
        }
        let rank = rank(row);
        if weight > self.weight || rank < self.rank {
            *self = Heaviest {
                weight,
                rank,
                index,
            };
        }
    }

    #[inline(always)]
    pub fn due(&self) -> u32 {
        self.rank >> 2
    }
}

/// What a sending does beside the changes of a leap.
pub struct Step {
    pub reply: u64,
    pub index: usize,
    /// Whether the row sent leaves; otherwise it stays as a kept blank.
    pub leaves: bool,
}

impl Step {
    #[inline(always)]
    pub fn of(rows: &[Row], index: usize, leap: bool) -> Step {
        let row = &rows[index];
        let out = 1 + u64::from(KIND.get(row)) + if leap { 4 } else { 0 };
        Step {
            reply: out << 32 | u64::from(ticket(row)) << 8,
            index,
            leaves: true,
        }
    }
}

pub fn send(table: &mut [u8]) -> u64 {
    if is_sealed(table) {
        by_size::<true>(table)
    } else {
        by_size::<false>(table)
    }
}

#[inline(always)]
fn by_size<const IS_SEALED: bool>(table: &mut [u8]) -> u64 {
    if table.len() <= SMALL {
        send_in::<SMALL_ROWS, IS_SEALED>(table)
    } else if table.len() <= MIDDLE {
        send_in::<MIDDLE_ROWS, IS_SEALED>(table)
    } else {
        send_in::<MOST_ROWS, IS_SEALED>(table)
    }
}

#[inline(never)]
fn send_in<const N: usize, const IS_SEALED: bool>(table: &mut [u8]) -> u64 {
    let mut array = [NONE_DUE; N];
    let mut counts = Counts(&mut array);
    let head = match judge(table, |ahead, _| counts.add(ahead)) {
        Ok(head) => head,
        Err(refusal) => return refusal,
    };
    if head.used == 0 {
        next_slot(table, head, 0);
        return 0;
    }
    let due_now = counts.at(0);
    let load = counts.load(head.used);
    if IS_SEALED && load.busy == 0 {
        next_slot(table, head, head.used);
        return 0;
    }
    let rows = rows_mut(table);
    let used = &mut rows[..head.used];
    let step = match load.left_out {
        _ if IS_SEALED => sealed::step(used, head.slot, &mut counts, &load),
        0 => easy::step(used, head.slot, &counts, load.busy),
        _ => crowded(used, head.slot, &mut counts, &load),
    };
    let kept = close_up(rows, head, due_now, step.leaves.then_some(step.index));
    next_slot(table, head, kept);
    step.reply
}

fn next_slot(table: &mut [u8], head: Head, used: usize) {
    SLOT.put(table, head.slot + 1);
    USED.put(table, used as u32);
}

/// With rows left out.
fn crowded<const N: usize>(
    rows: &mut [Row],
    slot: u32,
    counts: &mut Counts<N>,
    load: &Load,
) -> Step {
    let mut late = Heaviest::NONE;
    let mut index = Index::<N>::none();
    let placed = |place, at| index.put(place, at);
    let mut plan = Plan::sorted(rows, slot, counts, load, placed, |row, at| {
        late.see(row, at)
    });
    plan.leave_out(load.left_out);
    let mut segments = Segments::<N>::none();
    let pick = segments.fill(&plan, load.busy);
    if score(u64::from(late.weight), 0) > pick.score {
        return Step::of(rows, late.index, true);
    }
    let is_leap = pick.segment + 1 < segments.len;
    let mut step = Step::of(rows, index.of(pick.key), is_leap);
    step.leaves = !(is_leap && leap(rows, slot, &plan, &index, &mut segments, &pick));
    step
}
