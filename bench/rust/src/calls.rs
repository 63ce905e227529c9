//! Opening, taking and sealing. Every call returns its packed reply.

use crate::sound::{judge, LENGTH};
use crate::table::{
    is_length, is_sealed, rows, rows_mut, set, CLASS, LAST, MOST_CLASS, MOST_LAST, MOST_WEIGHT,
    NEXT, SEALED, TICKET, TICKET_LIMIT, USED,
};

pub use crate::questions::{mark, total};
pub use crate::send::send;
pub use crate::substitute::substitute;

const LAST_TOO_LATE: u64 = 4;
const BAD_WEIGHT: u64 = 6;
pub(crate) const BAD_SLOT: u64 = 7;
const NO_TICKET_LEFT: u64 = 8;
const TABLE_FULL: u64 = 9;
const IS_SEALED: u64 = 13;
const BAD_CLASS: u64 = 14;

pub fn open(last: u32, table: &mut [u8]) -> u64 {
    if !is_length(table.len()) {
        return LENGTH;
    }
    if last > MOST_LAST {
        return LAST_TOO_LATE;
    }
    table.fill(0);
    LAST.put(table, last);
    NEXT.put(table, 1);
    0
}

/// Without a class it is 0.
pub fn take(due: u32, weight: u32, table: &mut [u8]) -> u64 {
    taken(due, weight, 0, table)
}

pub fn take_class(due: u32, weight: u32, class: u32, table: &mut [u8]) -> u64 {
    taken(due, weight, class, table)
}

#[inline(always)]
fn taken(due: u32, weight: u32, class: u32, table: &mut [u8]) -> u64 {
    let head = match judge(table, |_, _| ()) {
        Ok(head) => head,
        Err(refusal) => return refusal,
    };
    if is_sealed(table) {
        return IS_SEALED;
    }
    if weight.wrapping_sub(1) >= MOST_WEIGHT {
        return BAD_WEIGHT;
    }
    if due < head.slot || due > head.last {
        return BAD_SLOT;
    }
    if class > MOST_CLASS {
        return BAD_CLASS;
    }
    if head.next == TICKET_LIMIT {
        return NO_TICKET_LEFT;
    }
    if head.used == rows(table).len() {
        return TABLE_FULL;
    }
    let row = &mut rows_mut(table)[head.used];
    TICKET.put(row, head.next);
    set(row, due, weight);
    CLASS.put(row, class);
    NEXT.put(table, head.next + 1);
    USED.put(table, head.used as u32 + 1);
    u64::from(head.next) << 8
}

pub fn seal(table: &mut [u8]) -> u64 {
    if let Err(refusal) = judge(table, |_, _| ()) {
        return refusal;
    }
    SEALED.put(table, 1);
    0
}
