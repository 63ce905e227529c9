//! Taking a frame.

use crate::counts::{Class, Slot, Ticket, Weight};
use crate::reasons::{Asked, Frame};
use crate::refusal::Refusal;
use crate::round::Row;
use crate::rules::Rules;
use crate::table::{put_row, row_mut, NEXT, USED};

/// Without a class a frame has class 0.
pub fn take(rules: &Rules, due: Slot, weight: Weight, table: &mut [u8]) -> Result<Ticket, Refusal> {
    rules.take_class(due, weight, Class(0), table)
}

/// Fills the first unused row with the next ticket; the next ticket and the
/// rows in use rise by 1, and nothing else changes.
pub fn take_class(
    rules: &Rules,
    due: Slot,
    weight: Weight,
    class: Class,
    table: &mut [u8],
) -> Result<Ticket, Refusal> {
    let frame = Frame { due, weight, class };
    let round = Asked::new(rules, table, frame).accepted(&rules.reasons.take)?;
    let (ticket, used) = (round.next, round.rows.len());
    put_row(&Row::frame(ticket, due, weight, class), row_mut(table, used));
    NEXT.put(table, ticket.0 + 1);
    USED.put(table, used as u32 + 1);
    Ok(ticket)
}
