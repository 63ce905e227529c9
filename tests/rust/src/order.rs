//! Rows and blanks side by side, and the two orders of document 01, heavier
//! as document 02 refines it (request L2).

use crate::counts::{Class, Slot, Ticket, Weight};
use crate::round::{Round, Row};
use crate::rules::Rules;
use std::cmp::Ordering;

/// A row, or a blank without a row (which has no ticket).
#[derive(Clone, Copy, PartialEq, Eq, Debug)]
pub struct Item {
    pub due: Slot,
    pub weight: Weight,
    pub class: Class,
    pub ticket: Option<Ticket>,
}

impl Item {
    pub fn of_row(row: &Row) -> Item {
        Item {
            due: row.due,
            weight: row.weight,
            class: row.class,
            ticket: Some(row.ticket),
        }
    }

    pub fn blank(due: Slot) -> Item {
        Item {
            due,
            weight: Weight(0),
            class: Round::CLASS,
            ticket: None,
        }
    }
}

/// Heavier comes first: larger weight; if equal, earlier due slot; if equal,
/// smaller class; if equal, smaller ticket.
pub fn heaviest_first(a: &Item, b: &Item) -> Ordering {
    let weight = b.weight.cmp(&a.weight);
    let due = a.due.cmp(&b.due);
    let class = a.class.cmp(&b.class);
    let ticket = a.ticket.cmp(&b.ticket);
    weight.then(due).then(class).then(ticket)
}

impl Rules {
    pub fn heaviest_first(&self, a: &Item, b: &Item) -> Ordering {
        (self.planning.heaviest_first)(a, b)
    }

    /// Canonical order: earlier due slot; if equal, heavier.
    pub fn canonical(&self, a: &Item, b: &Item) -> Ordering {
        let due = a.due.cmp(&b.due);
        due.then_with(|| self.heaviest_first(a, b))
    }
}
