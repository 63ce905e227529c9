//! The mark of a slot, and the plan's total.

use crate::calls::BAD_SLOT;
use crate::count::{Counts, NONE_DUE};
use crate::plan::{ahead_in, weight_in, Plan, OUTSIDE};
use crate::sound::judge;
use crate::table::{due, rows, weight, Row, MIDDLE, MIDDLE_ROWS, MOST_ROWS, SMALL, SMALL_ROWS};

pub fn total(table: &[u8]) -> u64 {
    if table.len() <= SMALL {
        total_in::<SMALL_ROWS>(table)
    } else if table.len() <= MIDDLE {
        total_in::<MIDDLE_ROWS>(table)
    } else {
        total_in::<MOST_ROWS>(table)
    }
}

#[inline(never)]
fn total_in<const N: usize>(table: &[u8]) -> u64 {
    let mut array = [NONE_DUE; N];
    let mut counts = Counts(&mut array);
    let mut total = 0;
    let judged = judge(table, |ahead, weight| {
        counts.add(ahead);
        total += u64::from(weight);
    });
    let head = match judged {
        Ok(head) => head,
        Err(refusal) => return refusal,
    };
    let load = counts.load(head.used);
    if load.left_out > 0 {
        let used = &rows(table)[..head.used];
        let mut plan = Plan::sorted(used, head.slot, &mut counts, &load, |_, _| (), |_, _| ());
        plan.each_outside(load.left_out, |_, key| total -= weight_in(key));
    }
    total << 8
}

pub fn mark(slot: u32, table: &[u8]) -> u64 {
    if table.len() <= SMALL {
        mark_in::<SMALL_ROWS>(slot, table)
    } else if table.len() <= MIDDLE {
        mark_in::<MIDDLE_ROWS>(slot, table)
    } else {
        mark_in::<MOST_ROWS>(slot, table)
    }
}

#[inline(never)]
fn mark_in<const N: usize>(slot: u32, table: &[u8]) -> u64 {
    let mut array = [NONE_DUE; N];
    let mut counts = Counts(&mut array);
    let head = match judge(table, |ahead, _| counts.add(ahead)) {
        Ok(head) => head,
        Err(refusal) => return refusal,
    };
    if slot < head.slot || slot > head.last {
        return BAD_SLOT;
    }
    let used = &rows(table)[..head.used];
    let load = counts.load(head.used);
    let ahead = (slot - head.slot) as usize;
    if ahead >= load.busy {
        return 0;
    }
    if load.left_out == 0 {
        return lightest_by(used, head.slot + counts.tight(ahead) as u32) << 8;
    }
    let mut plan = Plan::sorted(used, head.slot, &mut counts, &load, |_, _| (), |_, _| ());
    plan.leave_out(load.left_out);
    mark_of(&plan, &counts, ahead) << 8
}

/// The smallest weight due by this slot.
#[inline(always)]
fn lightest_by(rows: &[Row], slot: u32) -> u64 {
    let lighter = |lightest: u32, row: &Row| match due(row) <= slot {
        true => lightest.min(weight(row)),
        false => lightest,
    };
    let (fours, rest) = rows.as_chunks::<4>();
    let lightest = fours.iter().flatten().fold(u32::MAX, lighter);
    u64::from(rest.iter().fold(lightest, lighter))
}

/// The smallest weight in the plan due by the first tight slot at or after this one.
#[inline(always)]
fn mark_of<const N: usize>(plan: &Plan<N>, counts: &Counts<N>, ahead: usize) -> u64 {
    let (before, after) = plan.split(counts, ahead);
    let outside: u64 = before.iter().map(|key| key / OUTSIDE).sum();
    let mut kept = before.len() - outside as usize;
    let mut lightest = before
        .iter()
        .fold(u64::MAX, |lightest, key| lightest.min(*key));
    for key in after.iter().rev() {
        lightest = lightest.min(*key);
        kept += usize::from(key & OUTSIDE == 0);
        if kept > ahead_in(*key) {
            break;
        }
    }
    weight_in(lightest)
}
