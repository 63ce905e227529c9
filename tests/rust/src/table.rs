//! The table's layout: a head of 16 bytes, then rows of 24. The bytes after
//! the last field of each are zero.

use crate::counts::{Class, Slot, Ticket, Weight};
use crate::field::{fields, Field};
use crate::round::{Round, Row};

pub const HEAD: usize = 16;
pub const ROW: usize = 24;

fields! {
    /// The head's fields: what it is, its first byte, and how many it has.
    HEAD_FIELDS:
    SLOT, "current slot", 0, 2;
    LAST, "last slot", 2, 2;
    NEXT, "next ticket", 4, 4;
    USED, "rows in use", 8, 2;
    SEALED, "sealed", 10, 1;
}

fields! {
    /// A row's fields.
    ROW_FIELDS:
    TICKET, "ticket", 0, 4;
    DUE, "due slot", 4, 2;
    WEIGHT, "weight", 6, 4;
    KIND, "kind", 10, 1;
    CLASS, "class", 11, 1;
}

/// Where the zero bytes begin, after these fields.
pub const fn zeros_at(fields: &[Field]) -> usize {
    fields[fields.len() - 1].end()
}

/// The number of rows of a table of this length, if refusal 2 allows it.
pub fn rows_of(length: usize) -> Option<usize> {
    let rows = length.checked_sub(HEAD)? / ROW;
    let is_whole = length == row_at(rows);
    (is_whole && (1..=Round::ROWS).contains(&rows)).then_some(rows)
}

/// Where a row's bytes start.
pub const fn row_at(place: usize) -> usize {
    HEAD + ROW * place
}

/// A row's bytes.
pub fn row_mut(table: &mut [u8], place: usize) -> &mut [u8] {
    &mut table[row_at(place)..row_at(place + 1)]
}

/// Whether a table that a call accepted is of a sealed round.
pub fn is_sealed(table: &[u8]) -> bool {
    table.len() >= HEAD && SEALED.get(table) == 1
}

/// The round in a sound table.
pub fn decode(table: &[u8]) -> Round {
    let (head, rows) = table.split_at(HEAD);
    let used = rows.chunks_exact(ROW).take(USED.get(head) as usize);
    Round {
        slot: Slot(SLOT.get(head)),
        last: Slot(LAST.get(head)),
        next: Ticket(NEXT.get(head)),
        sealed: SEALED.get(head) == 1,
        rows: used.map(get_row).collect(),
    }
}

fn get_row(bytes: &[u8]) -> Row {
    Row {
        ticket: Ticket(TICKET.get(bytes)),
        due: Slot(DUE.get(bytes)),
        weight: Weight(WEIGHT.get(bytes)),
        class: Class(CLASS.get(bytes)),
        kept: KIND.get(bytes) == 1,
    }
}

/// Writes a round over a whole table.
pub fn encode(round: &Round, table: &mut [u8]) {
    table.fill(0);
    SLOT.put(table, round.slot.0);
    LAST.put(table, round.last.0);
    NEXT.put(table, round.next.0);
    USED.put(table, round.rows.len() as u32);
    SEALED.put(table, u32::from(round.sealed));
    for (place, row) in round.rows.iter().enumerate() {
        put_row(row, row_mut(table, place));
    }
}

/// Writes a used row over its 24 bytes.
pub fn put_row(row: &Row, bytes: &mut [u8]) {
    TICKET.put(bytes, row.ticket.0);
    DUE.put(bytes, row.due.0);
    WEIGHT.put(bytes, row.weight.0);
    KIND.put(bytes, u32::from(row.kept));
    CLASS.put(bytes, row.class.0);
}
