//! The substitute for a ticket.

use crate::count::{Counts, NONE_DUE};
use crate::plan::{ahead_in, Index, Plan, OUTSIDE};
use crate::sound::judge;
use crate::table::{
    due, rank, rows, ticket as ticket_of, weight, Row, MIDDLE, MIDDLE_ROWS, MOST_ROWS, SMALL,
    SMALL_ROWS,
};

const NO_ROW: u64 = 10;
const NOT_PLANNED: u64 = 11;

pub fn substitute(ticket: u32, table: &[u8]) -> u64 {
    if table.len() <= SMALL {
        substitute_in::<SMALL_ROWS>(ticket, table)
    } else if table.len() <= MIDDLE {
        substitute_in::<MIDDLE_ROWS>(ticket, table)
    } else {
        substitute_in::<MOST_ROWS>(ticket, table)
    }
}

#[inline(never)]
fn substitute_in<const N: usize>(ticket: u32, table: &[u8]) -> u64 {
    let mut array = [NONE_DUE; N];
    let mut counts = Counts(&mut array);
    let head = match judge(table, |ahead, _| counts.add(ahead)) {
        Ok(head) => head,
        Err(refusal) => return refusal,
    };
    let used = &rows(table)[..head.used];
    let Ok(index) = used.binary_search_by_key(&ticket, ticket_of) else {
        return NO_ROW;
    };
    let own = due(&used[index]);
    let ahead = (own - head.slot) as usize;
    let load = counts.load(head.used);
    if ahead >= load.busy {
        let late = head.used - load.busy - load.left_out;
        let before = (ahead - load.busy).min(late);
        return blank(late_start::<N>(used, own, before, late));
    }
    if load.left_out == 0 {
        return among_all(used, head.slot, &counts, ahead);
    }
    let mut places = Index::<N>::none();
    let placed = |place, at| places.put(place, at);
    let mut plan = Plan::sorted(used, head.slot, &mut counts, &load, placed, |_, _| ());
    plan.leave_out(load.left_out);
    let mut own = counts.last_place(ahead);
    while places.at(own) != index {
        own += 1;
    }
    if plan.at(own) & OUTSIDE != 0 {
        return NOT_PLANNED;
    }
    match planned(&plan, &counts, ahead) {
        Planned::By(key) => row(&used[places.of(key)]),
        Planned::Blank(start) => blank(head.slot + start as u32),
    }
}

#[inline(always)]
fn blank(due: u32) -> u64 {
    u64::from(due) << 32
}

#[inline(always)]
fn row(row: &Row) -> u64 {
    u64::from(ticket_of(row)) << 8
}

/// Past the busy slots, where `late` rows are due: the first slot of the segment of this due slot. Rows due from it on
/// are placed as late as they can go; the segment reaches back until the slots before it have taken those that did not
/// fit. Rows due `late` slots away or further move nothing; so many slots `before` it count.
fn late_start<const N: usize>(rows: &[Row], own: u32, before: usize, late: usize) -> u32 {
    let mut counts = [[0_u16; N]; 2];
    let counts = &mut counts.as_flattened_mut()[..before + late];
    let first = own - before as u32;
    for row in rows {
        if let Some(count) = counts.get_mut(due(row).wrapping_sub(first) as usize) {
            *count += 1;
        }
    }
    let waiting = |waiting: u16, count: &u16| (waiting + count).saturating_sub(1);
    let (earlier, later) = counts.split_at(before);
    let mut left = later.iter().rev().fold(0, waiting);
    let mut start = own;
    for count in earlier.iter().rev() {
        if left == 0 {
            break;
        }
        start -= 1;
        left = waiting(left, count);
    }
    start
}

/// In a busy slot when every row is in the plan.
fn among_all<const N: usize>(rows: &[Row], slot: u32, counts: &Counts<N>, ahead: usize) -> u64 {
    let own = counts.segment(ahead);
    if own.start > 0 {
        return blank(slot + own.start as u32);
    }
    let first_end = slot + own.end as u32;
    let due_by = rows.iter().filter(|row| due(row) <= first_end);
    let lightest = due_by.min_by_key(|row| (weight(row), !rank(row), !ticket_of(row)));
    lightest.map_or(0, row)
}

/// The substitute of a plan member: the row of a key, or a blank due this slot ahead.
enum Planned {
    By(u64),
    Blank(usize),
}

/// In a busy slot when rows are left out: by the lightest of the first segment, or the heaviest outside that is due in
/// its own or a later one. Keys of rows outside are the greatest.
#[inline(always)]
fn planned<const N: usize>(plan: &Plan<N>, counts: &Counts<N>, ahead: usize) -> Planned {
    let (mut kept, mut start, mut lightest) = (0, 0, u64::MAX);
    for key in plan.keys().iter().rev() {
        lightest = lightest.min(*key);
        kept += usize::from(key & OUTSIDE == 0);
        if kept > ahead_in(*key) {
            if kept > ahead {
                break;
            }
            start = kept;
        }
    }
    if start == 0 {
        return Planned::By(lightest);
    }
    let (_, later) = plan.split(counts, start);
    let heaviest = later.iter().fold(0, |heaviest, key| heaviest.max(*key));
    match heaviest < OUTSIDE {
        true => Planned::Blank(start),
        false => Planned::By(heaviest),
    }
}
