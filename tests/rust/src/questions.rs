//! The stations' calls that leave the table as it is: mark, total, substitute.

use crate::counts::{Slot, Ticket, Weight};
use crate::reasons::Asked;
use crate::refusal::Refusal;
use crate::rules::Rules;
use crate::substitute::Substitutes;

/// A substitute: a row's ticket, or a blank with its due slot.
#[derive(Clone, Copy, PartialEq, Eq, Debug)]
pub enum Substitute {
    Ticket(Ticket),
    Blank(Slot),
}

pub fn mark(rules: &Rules, slot: Slot, table: &[u8]) -> Result<Weight, Refusal> {
    let asked = Asked::new(rules, table, slot);
    asked.check(&rules.reasons.mark)?;
    Ok(asked.plan().mark(slot))
}

pub fn total(rules: &Rules, table: &[u8]) -> Result<u64, Refusal> {
    let asked = Asked::new(rules, table, ());
    asked.check(&rules.reasons.total)?;
    Ok(asked.plan().total())
}

pub fn substitute(rules: &Rules, ticket: Ticket, table: &[u8]) -> Result<Substitute, Refusal> {
    let asked = Asked::new(rules, table, ticket);
    asked.check(&rules.reasons.substitute)?;
    let member = asked.plan().member(ticket).ok_or(Refusal::OutsidePlan)?;
    let found = Substitutes::of(asked.plan()).of_member(member);
    Ok(match found.ticket {
        Some(ticket) => Substitute::Ticket(ticket),
        None => Substitute::Blank(found.due),
    })
}
