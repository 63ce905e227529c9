//! A leap's changes beside p's leaving. Marks are those before the slot.

use crate::plan::{ahead_in, weight_in, Index, Plan};
use crate::segments::{Pick, Segments};
use crate::table::{keep, set, Row};

/// Whether p's row stays, as a kept blank.
pub fn leap<const N: usize>(
    rows: &mut [Row],
    slot: u32,
    plan: &Plan<N>,
    index: &Index<N>,
    segments: &mut Segments<N>,
    pick: &Pick,
) -> bool {
    let own = pick.segment;
    if pick.substitute == 0 {
        let mark = marks(segments, own);
        let row = &mut rows[index.of(pick.key)];
        keep(row, slot + u32::from(segments.end[own + 1]) + 1, mark);
        return true;
    }
    let due = ahead_in(pick.substitute);
    let later = segments.end[..=own]
        .iter()
        .rposition(|end| usize::from(*end) >= due);
    let last = later.unwrap_or(0);
    let mark = marks(segments, last);
    shift(rows, slot, plan, index, segments, last, own);
    let row = &mut rows[index.of(pick.substitute)];
    set(row, slot + due as u32, mark);
    false
}

/// Turns each segment's lightest weight into its mark, from the earliest to this one, whose mark is returned.
#[inline(always)]
fn marks<const N: usize>(segments: &mut Segments<N>, last: usize) -> u32 {
    let mut mark = u32::MAX;
    for lightest in segments.lightest[last..segments.len].iter_mut().rev() {
        mark = mark.min(*lightest);
        *lightest = mark;
    }
    mark
}

/// The members that take the place of the one before them are those heavier than all of later segments: each is due
/// by the end of the segment of the next such one, or of p's.
#[inline(always)]
fn shift<const N: usize>(
    rows: &mut [Row],
    slot: u32,
    plan: &Plan<N>,
    index: &Index<N>,
    segments: &Segments<N>,
    last: usize,
    own: usize,
) {
    if last == own {
        return;
    }
    let heaviest = |at: usize| plan.at(usize::from(segments.heaviest[at]));
    let mut put = |moved: u64, at: usize| {
        let weight = (weight_in(moved) as u32).max(segments.lightest[at]);
        set(
            &mut rows[index.of(moved)],
            slot + u32::from(segments.end[at]),
            weight,
        );
    };
    let mut moved = heaviest(last);
    for at in last + 1..own {
        let key = heaviest(at);
        if key > moved {
            put(moved, at);
            moved = key;
        }
    }
    put(moved, own);
}
