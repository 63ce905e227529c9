//! When a table of a good length is sound, clause by clause.

use crate::field::Field;
use crate::round::Round;
use crate::rules::Clause;
use crate::table::{
    zeros_at, CLASS, DUE, HEAD, HEAD_FIELDS, KIND, LAST, NEXT, ROW, ROW_FIELDS, SEALED, SLOT,
    TICKET, USED, WEIGHT,
};

/// Document 01's clauses, in its order, and what the requests name for bytes
/// that they give a use.
pub const CLAUSES: &[Clause] = &[
    ("zero bytes", |table| head_zeros(table) && row_zeros(table)),
    ("sealed", |table| SEALED.get(table) <= 1),
    ("kinds", |table| each(table, KIND, |kind| kind <= 1)),
    ("classes", |table| each(table, CLASS, |class| class <= Round::CLASS.0)),
    ("kept blanks' class", |table| used(table).all(|row| !is_kept(row) || has_last_class(row))),
    ("rows in use", |table| USED.get(table) as usize <= rows(table)),
    ("last slot", |table| LAST.get(table) <= Round::LAST.0),
    ("current slot", |table| SLOT.get(table) <= LAST.get(table) + 1),
    ("next ticket", |table| (1..=Round::TICKET.0).contains(&NEXT.get(table))),
    ("tickets rise from 1 up", |table| pairs(table).all(|(before, ticket)| ticket > before)),
    ("tickets below the next", |table| each(table, TICKET, |ticket| ticket < NEXT.get(table))),
    ("due slots", |table| {
        each(table, DUE, |due| (SLOT.get(table)..=LAST.get(table)).contains(&due))
    }),
    ("weights", |table| each(table, WEIGHT, |weight| (1..=Round::WEIGHT.0).contains(&weight))),
    ("unused rows", |table| is_zero(unused(table))),
];

/// The rows that a table has room for.
fn rows(table: &[u8]) -> usize {
    (table.len() - HEAD) / ROW
}

/// The rows in use, each by its own 24 bytes.
pub fn used(table: &[u8]) -> impl Iterator<Item = &[u8]> + Clone {
    let rows = table[HEAD..].chunks_exact(ROW);
    rows.take(USED.get(table) as usize)
}

/// The bytes of the unused rows.
pub fn unused(table: &[u8]) -> &[u8] {
    let used = (USED.get(table) as usize).min(rows(table));
    &table[HEAD + ROW * used..]
}

/// Whether this holds of a field of every row in use.
pub fn each(table: &[u8], field: Field, holds: impl Fn(u32) -> bool) -> bool {
    used(table).all(|row| holds(field.get(row)))
}

/// The tickets of the rows in use, each with the one before it; 0 stands
/// before the first.
pub fn pairs(table: &[u8]) -> impl Iterator<Item = (u32, u32)> + '_ {
    let tickets = used(table).map(|row| TICKET.get(row));
    [0].into_iter().chain(tickets.clone()).zip(tickets)
}

pub fn is_kept(row: &[u8]) -> bool {
    KIND.get(row) == 1
}

pub fn has_last_class(row: &[u8]) -> bool {
    CLASS.get(row) == Round::CLASS.0
}

pub fn is_zero(bytes: &[u8]) -> bool {
    bytes.iter().fold(0, |any, byte| any | byte) == 0
}

pub fn head_zeros(table: &[u8]) -> bool {
    is_zero(&table[zeros_at(HEAD_FIELDS)..HEAD])
}

pub fn row_zeros(table: &[u8]) -> bool {
    used(table).all(|row| is_zero(&row[zeros_at(ROW_FIELDS)..]))
}
