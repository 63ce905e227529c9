//! Refusals 2, 3 and 5: the table's length, its soundness, and a round that is over.

use crate::table::{
    is_length, rows, weight, word, Head, Row, CLASS, DUE, KIND, LAST, MOST_CLASS, MOST_LAST,
    MOST_WEIGHT, NEXT, SEALED, SLOT, TICKET, TICKET_LIMIT, USED, WEIGHT, WORD,
};

/// The bits above the due slot in a row's first word, and those below it once these are shifted out.
const ABOVE_DUE: usize = 8 * (WORD - DUE.end());
const DUE_AT_TOP: usize = 8 * (WORD - DUE.size);

/// The bit of a sealed round in the head's second word.
const SEAL: u64 = 1 << (8 * (SEALED.at - USED.at));

/// In a row's second word: the bit of a kept blank, those of its class, and those that no row may have. The weight's upper half stands
/// below them.
const KEPT: u64 = 1 << (8 * (KIND.at - WORD));
const CLASS_AT: usize = 8 * (CLASS.at - WORD);
const NONE_OF: u64 = !(KEPT | (MOST_CLASS as u64) << CLASS_AT) >> ABOVE << ABOVE;
const ABOVE: usize = 8 * (WEIGHT.end() - WORD);

pub const LENGTH: u64 = 2;
pub const NOT_SOUND: u64 = 3;
pub const OVER: u64 = 5;

/// The head of a table that these three let through. `each` sees every used row: how far ahead it is due, and its
/// weight; on a table that is not sound these may be any numbers.
#[inline(always)]
pub fn judge(table: &[u8], each: impl FnMut(usize, u32)) -> Result<Head, u64> {
    if !is_length(table.len()) {
        return Err(LENGTH);
    }
    let rows = rows(table);
    let Some(head) = head(table, rows.len()) else {
        return Err(NOT_SOUND);
    };
    let (used, unused) = rows.split_at(head.used);
    if !used_are_sound(used, head, each) || !are_zero(unused) {
        return Err(NOT_SOUND);
    }
    if head.slot > head.last {
        return Err(OVER);
    }
    Ok(head)
}

/// The head's second word is the rows in use, the seal, of which one bit may be set, and five zero bytes: without that bit
/// one comparison judges all.
#[inline(always)]
fn head(table: &[u8], rows: usize) -> Option<Head> {
    let first = word(table, 0);
    let used = word(table, USED.at) & !SEAL;
    let head = Head {
        slot: SLOT.of_word(first),
        last: LAST.of_word(first),
        next: NEXT.of_word(first),
        used: used as usize,
    };
    let next = head.next.wrapping_sub(1) < TICKET_LIMIT;
    let sound = used <= rows as u64 && head.last <= MOST_LAST && head.slot <= head.last + 1 && next;
    sound.then_some(head)
}

/// No branch but the loop's: what every row must have is counted, and bits that no row may have are gathered.
#[inline(always)]
fn used_are_sound(used: &[Row], head: Head, mut each: impl FnMut(usize, u32)) -> bool {
    let slot = u64::from(head.slot) << DUE_AT_TOP;
    let slots_left = u64::from(head.last + 1 - head.slot) << DUE_AT_TOP;
    let (mut rising, mut timely) = (0, 0);
    let (mut weights, mut seconds, mut thirds) = (0, 0, 0);
    let mut previous = 0;
    for row in used {
        let first = word(row, 0);
        let ticket = TICKET.of_word(first);
        rising += usize::from(previous < ticket);
        previous = ticket;
        // The due slot in the top two bytes, above the ticket.
        let ahead = (first << ABOVE_DUE).wrapping_sub(slot);
        timely += usize::from(ahead < slots_left);
        let weight = weight(row);
        weights |= weight.wrapping_sub(1);
        seconds |= word(row, WORD);
        thirds |= word(row, 2 * WORD);
        each((ahead >> DUE_AT_TOP) as usize, weight);
    }
    let zeros = seconds & NONE_OF | thirds | u64::from(weights / MOST_WEIGHT);
    let sound = zeros == 0 && rising == used.len() && timely == used.len();
    sound && previous < head.next && (seconds & KEPT == 0 || kept_are_last(used))
}

/// Where some row is a kept blank: each such has class 3. With a class and five times the kind in one number, only a kept blank of
/// another class has the bit of 4.
#[inline(never)]
fn kept_are_last(used: &[Row]) -> bool {
    let five_times = 1 + (5 << (CLASS_AT - 8 * (KIND.at - WORD)));
    let other = |bits: u64, row: &Row| bits | word(row, WORD).wrapping_mul(five_times);
    used.iter().fold(0, other) >> CLASS_AT & 4 == 0
}

/// A branch for each eight bytes, as document 02 asks (L8), of four rows in a turn.
#[inline(always)]
fn are_zero(unused: &[Row]) -> bool {
    let (fours, rest) = unused.as_chunks::<4>();
    fours.iter().all(|four| four.iter().all(is_zero)) && rest.iter().all(is_zero)
}

#[inline(always)]
fn is_zero(row: &Row) -> bool {
    word(row, 0) == 0 && word(row, WORD) == 0 && word(row, 2 * WORD) == 0
}
