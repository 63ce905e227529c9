//! A round as it stands between two calls.

use crate::counts::{Class, Slot, Ticket, Weight};
use crate::order::Item;

/// A waiting row: a frame, or a kept blank.
#[derive(Clone, Copy, PartialEq, Eq, Debug)]
pub struct Row {
    pub ticket: Ticket,
    pub due: Slot,
    pub weight: Weight,
    pub class: Class,
    /// True for a kept blank.
    pub kept: bool,
}

#[derive(Clone, PartialEq, Eq, Debug)]
pub struct Round {
    pub slot: Slot,
    pub last: Slot,
    pub next: Ticket,
    /// No frame is taken any more, and the plan goes out in canonical order.
    pub sealed: bool,
    /// The used rows, in ticket order.
    pub rows: Vec<Row>,
}

impl Row {
    pub fn frame(ticket: Ticket, due: Slot, weight: Weight, class: Class) -> Row {
        Row {
            ticket,
            due,
            weight,
            class,
            kept: false,
        }
    }

    /// Kept blanks have class 3.
    pub fn kept_blank(ticket: Ticket, due: Slot, weight: Weight) -> Row {
        Row {
            kept: true,
            ..Row::frame(ticket, due, weight, Round::CLASS)
        }
    }

    /// A frame of this class, or with none a kept blank.
    pub fn of_kind(class: Option<Class>, ticket: Ticket, due: Slot, weight: Weight) -> Row {
        match class {
            Some(class) => Row::frame(ticket, due, weight, class),
            None => Row::kept_blank(ticket, due, weight),
        }
    }
}

impl Round {
    /// The most rows a table has.
    pub const ROWS: usize = 1_024;
    /// The latest last slot.
    pub const LAST: Slot = Slot(4_095);
    /// The greatest weight.
    pub const WEIGHT: Weight = Weight(16_777_216);
    /// The greatest class; kept blanks have it.
    pub const CLASS: Class = Class(3);
    /// The greatest next ticket; with it no frame is taken.
    pub const TICKET: Ticket = Ticket(16_777_216);

    /// The round just after opening.
    pub fn opened(last: Slot) -> Round {
        Round {
            slot: Slot(0),
            last,
            next: Ticket(1),
            sealed: false,
            rows: Vec::new(),
        }
    }

    /// The place of the row with this ticket.
    pub fn place(&self, ticket: Ticket) -> Option<usize> {
        self.rows.iter().position(|row| row.ticket == ticket)
    }

    /// An item's row; a blank has none.
    pub fn row_of(&mut self, item: Item) -> Option<&mut Row> {
        let place = self.place(item.ticket?)?;
        Some(&mut self.rows[place])
    }

    /// An item's row leaves, and the others close up.
    pub fn leaves(&mut self, item: Item) {
        self.rows.retain(|row| Some(row.ticket) != item.ticket);
    }
}
