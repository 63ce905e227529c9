//! The plan: from heaviest to lightest, each row or blank that leaves the set
//! feasible is kept (document 01; algorithm ComputePlan of the source).

use crate::counts::{Slot, Ticket};
use crate::order::Item;
use crate::round::Round;
use crate::rules::Rules;

#[derive(Clone)]
pub struct Plan<'a> {
    pub rules: &'a Rules,
    pub slot: Slot,
    pub last: Slot,
    /// Rows and blanks in the plan, in canonical order.
    pub members: Vec<Item>,
    /// The waiting rows left out, and one more blank due in each slot.
    pub outside: Vec<Item>,
    /// The tight slots, rising; the slot before the current counts as one.
    pub tight: Vec<i64>,
}

/// For each slot from the current on, how many more members due by it the set
/// can bear: s − t + 1 less those it has.
struct Free {
    slot: Slot,
    left: Vec<i16>,
}

impl Free {
    fn new(slot: Slot, last: Slot) -> Free {
        let slots = (last.0 + 1).saturating_sub(slot.0) as i16;
        Free {
            slot,
            left: (1..=slots).collect(),
        }
    }

    fn from(&mut self, due: Slot) -> &mut [i16] {
        &mut self.left[(due.0 - self.slot.0) as usize..]
    }

    /// Whether one more member due in this slot leaves the set feasible.
    fn bears(&mut self, due: Slot) -> bool {
        self.from(due).iter().copied().fold(i16::MAX, i16::min) > 0
    }

    /// Takes a member due in this slot into the set.
    fn keep(&mut self, due: Slot) {
        for left in self.from(due) {
            *left -= 1;
        }
    }

    /// For each slot, how many more members due there the set can bear: the
    /// least that is left there or later.
    fn bears_from_each(&self) -> Vec<i16> {
        let mut bears = self.left.clone();
        for place in (1..bears.len()).rev() {
            bears[place - 1] = bears[place - 1].min(bears[place]);
        }
        bears
    }
}

/// From heaviest to lightest, then in canonical order.
pub fn plan<'a>(round: &Round, rules: &'a Rules) -> Plan<'a> {
    let mut plan = Plan {
        rules,
        slot: round.slot,
        last: round.last,
        members: Vec::new(),
        outside: Vec::new(),
        tight: vec![i64::from(round.slot.0) - 1],
    };
    let mut free = Free::new(round.slot, round.last);
    plan.choose_rows(round, &mut free);
    plan.choose_blanks(&mut free);
    plan.members.sort_by(|a, b| rules.canonical(a, b));
    for (s, left) in (round.slot.0..).zip(&free.left) {
        if *left == 0 {
            plan.tight.push(i64::from(s));
        }
    }
    plan
}

impl<'a> Plan<'a> {
    pub fn of(round: &Round, rules: &'a Rules) -> Plan<'a> {
        (rules.planning.plan)(round, rules)
    }

    /// Every row weighs more than every blank, so the rows come first.
    fn choose_rows(&mut self, round: &Round, free: &mut Free) {
        let mut rows: Vec<Item> = round.rows.iter().map(Item::of_row).collect();
        rows.sort_by(|a, b| self.rules.heaviest_first(a, b));
        for row in rows {
            if free.bears(row.due) {
                free.keep(row.due);
                self.members.push(row);
            } else {
                self.outside.push(row);
            }
        }
    }

    /// Blanks from the earliest due slot to the latest, in each as many as the
    /// set bears, and one more outside. A blank kept for one slot is due by
    /// every later one too.
    fn choose_blanks(&mut self, free: &mut Free) {
        let bears = free.bears_from_each();
        let mut kept = 0;
        for (place, s) in (self.slot.0..=self.last.0).enumerate() {
            let blank = Item::blank(Slot(s));
            while kept < bears[place] {
                self.members.push(blank);
                kept += 1;
            }
            free.left[place] -= kept;
            self.outside.push(blank);
        }
    }

    /// The sum of the members' weights, kept blanks included.
    pub fn total(&self) -> u64 {
        self.members
            .iter()
            .map(|item| u64::from(item.weight.0))
            .sum()
    }

    /// The plan member with this ticket.
    pub fn member(&self, ticket: Ticket) -> Option<Item> {
        self.members
            .iter()
            .copied()
            .find(|item| item.ticket == Some(ticket))
    }
}
