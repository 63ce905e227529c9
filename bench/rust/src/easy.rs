//! Sending when nothing is left out: the plan is every row, and every substitute outside it is a blank.

use crate::count::{Counts, Segment};
use crate::segments::score;
use crate::send::{Heaviest, Step};
use crate::table::{due, keep, weight, Row};

pub fn step<const N: usize>(rows: &mut [Row], slot: u32, counts: &Counts<N>, busy: usize) -> Step {
    let mut heaviest = Heaviest::NONE;
    for (index, row) in rows.iter().enumerate() {
        heaviest.see(row, index);
    }
    let leap = |rows: &[Row]| Step::of(rows, heaviest.index, true);
    if busy == 0 {
        return leap(rows);
    }
    let first_end = counts.segment(0).end;
    let ahead = (heaviest.due() - slot) as usize;
    if ahead <= first_end {
        return Step::of(rows, heaviest.index, false);
    }
    let late = ahead >= busy;
    let own = if late {
        Segment {
            start: 0,
            end: first_end,
        }
    } else {
        counts.segment(ahead)
    };
    let found = look(rows, slot + first_end as u32, slot + own.end as u32);
    if score(u64::from(found.first.weight), u64::from(found.lightest))
        > score(u64::from(heaviest.weight), 0)
    {
        return Step::of(rows, found.first.index, false);
    }
    let mut step = leap(rows);
    if !late {
        let row = &mut rows[heaviest.index];
        keep(row, slot + own.start as u32, found.mark);
        step.leaves = false;
    }
    step
}

struct Found {
    /// The heaviest row due in the first segment.
    first: Heaviest,
    /// The lightest weight in the first segment.
    lightest: u32,
    /// The lightest weight up to p's segment's end.
    mark: u32,
}

#[inline(always)]
fn look(rows: &[Row], first_end: u32, own_end: u32) -> Found {
    let mut found = Found {
        first: Heaviest::NONE,
        lightest: u32::MAX,
        mark: u32::MAX,
    };
    for (index, row) in rows.iter().enumerate() {
        let due = due(row);
        if due > own_end {
            continue;
        }
        let weight = weight(row);
        found.mark = found.mark.min(weight);
        if due > first_end {
            continue;
        }
        found.lightest = found.lightest.min(weight);
        found.first.see(row, index);
    }
    found
}
