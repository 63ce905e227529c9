//! Listing the plan's rows.

use crate::counts::{Slot, Ticket, Weight};
use crate::order::Item;
use crate::plan::Plan;
use crate::reasons::Asked;
use crate::refusal::Refusal;
use crate::rules::Rules;

/// One entry of the lent list.
#[derive(Clone, Copy, PartialEq, Eq, Debug)]
pub struct Entry {
    pub ticket: Ticket,
    pub due: Slot,
    pub weight: Weight,
}

impl Entry {
    /// All zero.
    pub const ZERO: Entry = Entry {
        ticket: Ticket(0),
        due: Slot(0),
        weight: Weight(0),
    };

    /// Of a row.
    pub fn of(item: &Item) -> Option<Entry> {
        Some(Entry {
            ticket: item.ticket?,
            due: item.due,
            weight: item.weight,
        })
    }
}

/// Entries past the count do not change.
pub fn list(rules: &Rules, table: &[u8], entries: &mut [Entry]) -> Result<usize, Refusal> {
    let asked = Asked::new(rules, table, entries.len());
    asked.check(&rules.reasons.list)?;
    let listed = asked.listed();
    entries[..listed.len()].copy_from_slice(&listed);
    Ok(listed.len())
}

/// The plan's rows in canonical order; blanks without rows are left out.
pub fn listed(plan: &Plan) -> Vec<Entry> {
    plan.members.iter().filter_map(Entry::of).collect()
}
