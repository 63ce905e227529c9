//! Replies packed into one number, as they cross the C boundary: bits 0 to 7
//! the refusal, 0 when accepted; a refusal has every other bit 0.

use crate::call::Call;
use crate::counts::{Class, Slot, Ticket, Weight};
use crate::questions::Substitute;
use crate::refusal::Refusal;
use crate::rules::Rules;
use crate::send::{Out, Step};

impl Rules {
    /// The packed reply to a call over the lent table.
    pub fn answer(&self, call: Call, table: &mut [u8]) -> u64 {
        match call {
            Call::Open { last } => packed(self.open(Slot(last), table), |()| 0),
            Call::Take { due, weight } => {
                packed(self.take(Slot(due), Weight(weight), table), ticket)
            }
            Call::TakeClass { due, weight, class } => {
                packed(self.take_class(Slot(due), Weight(weight), Class(class), table), ticket)
            }
            Call::Send => packed(self.send(table), step),
            Call::Seal => packed(self.seal(table), |()| 0),
            Call::Mark { slot } => packed(self.mark(Slot(slot), table), mark),
            Call::Total => packed(self.total(table), |total| total << 8),
            Call::Substitute { ticket } => {
                packed(self.substitute(Ticket(ticket), table), substitute)
            }
        }
    }
}

fn packed<T>(reply: Result<T, Refusal>, pack: fn(T) -> u64) -> u64 {
    match reply {
        Ok(value) => pack(value),
        Err(refusal) => u64::from(refusal.number()),
    }
}

/// A ticket stands in bits 8 to 31.
fn ticket(ticket: Ticket) -> u64 {
    u64::from(ticket.0) << 8
}

/// A mark stands from bit 8 up.
fn mark(mark: Weight) -> u64 {
    u64::from(mark.0) << 8
}

/// The ticket, what went out in bits 32 and 33, and bit 34 for a leap.
fn step(step: Step) -> u64 {
    let (out, leap) = match step {
        Step::Ordinary(out) => (out, 0),
        Step::Leap(out) => (out, 1 << 34),
    };
    leap | match out {
        Out::Silence => 0,
        Out::Frame(sent) => ticket(sent) | 1 << 32,
        Out::KeptBlank(sent) => ticket(sent) | 2 << 32,
    }
}

/// A ticket, or for a blank its due slot in bits 32 to 47.
fn substitute(found: Substitute) -> u64 {
    match found {
        Substitute::Ticket(row) => ticket(row),
        Substitute::Blank(due) => u64::from(due.0) << 32,
    }
}
