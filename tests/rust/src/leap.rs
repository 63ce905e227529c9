//! A leap: what changes in the waiting rows besides p's leaving. All marks and
//! tight slots are those of the plan before the slot.

use crate::counts::{Slot, Weight};
use crate::order::Item;
use crate::plan::Plan;
use crate::round::{Round, Row};

/// A member or substitute, and the due slot and weight that it gets.
#[derive(Clone, Copy, Debug)]
pub struct Change {
    pub of: Item,
    pub due: Slot,
    pub weight: Weight,
}

pub struct Leap {
    /// Step 2: each h.
    pub shifted: Vec<Change>,
    /// Step 3: r.
    pub raised: Change,
    /// Step 3: the kept blank in p's row, if r becomes one.
    pub kept: Option<Row>,
}

/// Steps 1 to 3 of document 01, for p and its substitute r.
pub fn leap(plan: &Plan, p: Item, r: Item) -> Leap {
    let mark = plan.mark(r.due);
    let is_kept = r.ticket.is_none() && mark > Weight(0);
    Leap {
        shifted: shifted(plan, p, r),
        raised: Change {
            of: r,
            due: r.due,
            weight: mark,
        },
        kept: match is_kept {
            true => kept_blank(p, r.due, mark),
            false => None,
        },
    }
}

/// Step 2: each h takes the place of the one before it.
pub fn shifted(plan: &Plan, p: Item, r: Item) -> Vec<Change> {
    let g = plan.tight_from(r.due);
    let mut e = plan.tight_from(p.due);
    let mut shifted = Vec::new();
    while e < g {
        let h = plan.heaviest_between(e, g);
        shifted.push(Change {
            of: h,
            due: e,
            weight: h.weight.max(plan.mark(e)),
        });
        e = plan.tight_from(h.due);
    }
    shifted
}

/// A kept blank with p's ticket, where p has one.
pub fn kept_blank(p: Item, due: Slot, weight: Weight) -> Option<Row> {
    p.ticket.map(|ticket| Row::kept_blank(ticket, due, weight))
}

impl Leap {
    /// Makes the changes; p's row leaves, or becomes the kept blank.
    pub fn changes(&self, round: &mut Round, p: Item) {
        for change in self.shifted.iter().chain([&self.raised]) {
            if let Some(row) = round.row_of(change.of) {
                row.due = change.due;
                row.weight = change.weight;
            }
        }
        match (self.kept, round.row_of(p)) {
            (Some(kept), Some(row)) => *row = kept,
            _ => round.leaves(p),
        }
    }
}
