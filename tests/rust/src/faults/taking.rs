//! Faults of taking.

use super::change::{before, reason};
use super::Entry;
use crate::counts::{Slot, Weight};
use crate::reasons::outside;
use crate::refusal::Refusal;
use crate::round::Round;
use crate::table::{row_at, NEXT, ROW, USED};
use crate::taking::take_class;

pub const FAULTS: &[Entry] = &[
    ("RefusalNineOneShort", "9 with one row still free", |rules| {
        reason(&mut rules.reasons.take, Refusal::Full, |asked| {
            row_at(asked.round().rows.len() + 1) >= asked.table.len()
        });
    }),
    ("LastSlotOver", "5 in the last slot", |rules| {
        reason(&mut rules.reasons.take, Refusal::Over, |asked| {
            asked.round().slot >= asked.round().last
        });
    }),
    ("SixAfterSeven", "7 comes before 6", |rules| {
        before(&mut rules.reasons.take, Refusal::Slot, Refusal::Weight);
    }),
    ("FiveAfterSix", "6 comes before 5", |rules| {
        before(&mut rules.reasons.take, Refusal::Weight, Refusal::Over);
    }),
    ("GreatestWeightRefused", "weight 16,777,216 gets 6", |rules| {
        reason(&mut rules.reasons.take, Refusal::Weight, |asked| {
            let weight = asked.argument.weight;
            weight == Weight(0) || weight >= Round::WEIGHT
        });
    }),
    ("WeightAboveTaken", "weight 16,777,217 is taken", |rules| {
        reason(&mut rules.reasons.take, Refusal::Weight, |asked| {
            let weight = asked.argument.weight;
            weight == Weight(0) || weight.0 > Round::WEIGHT.0 + 1
        });
    }),
    ("WeightZeroTaken", "weight 0 is taken", |rules| {
        reason(&mut rules.reasons.take, Refusal::Weight, |asked| {
            asked.argument.weight > Round::WEIGHT
        });
    }),
    ("LastDueRefused", "a due slot equal to the last gets 7", |rules| {
        reason(&mut rules.reasons.take, Refusal::Slot, |asked| {
            let due = asked.argument.due;
            outside(asked, due) || due == asked.round().last
        });
    }),
    ("CurrentDueRefused", "a due slot equal to the current gets 7", |rules| {
        reason(&mut rules.reasons.take, Refusal::Slot, |asked| {
            let due = asked.argument.due;
            outside(asked, due) || due == asked.round().slot
        });
    }),
    ("TakeStoresNothing", "taking gives a ticket and stores nothing", |rules| {
        rules.calls.take_class = |rules, due, weight, class, table| {
            take_class(rules, due, weight, class, &mut table.to_vec())
        };
    }),
    ("TakenInLastRow", "taking fills the last unused row", |rules| {
        rules.calls.take_class = |rules, due, weight, class, table| {
            let ticket = take_class(rules, due, weight, class, table)?;
            let taken = USED.get(table) as usize - 1;
            table[row_at(taken)..].rotate_left(ROW);
            Ok(ticket)
        };
    }),
    ("RefusedTakeWrites", "a taking refused by 7 raises the next ticket", |rules| {
        rules.calls.take_class = |rules, due, weight, class, table| {
            let taken = take_class(rules, due, weight, class, table);
            if taken == Err(Refusal::Slot) {
                NEXT.put(table, NEXT.get(table) + 1);
            }
            taken
        };
    }),
];

pub const HIDDEN: &[Entry] = &[
    ("EightAfterNine", "9 comes before 8", |rules| {
        before(&mut rules.reasons.take, Refusal::Full, Refusal::Tickets);
    }),
    ("TicketEarly", "8 one ticket early", |rules| {
        reason(&mut rules.reasons.take, Refusal::Tickets, |asked| {
            asked.round().next.0 >= Round::TICKET.0 - 1
        });
    }),
    ("TicketLate", "8 one ticket late", |rules| {
        reason(&mut rules.reasons.take, Refusal::Tickets, |asked| {
            asked.round().next > Round::TICKET
        });
    }),
    ("DueCutShort", "the due slot is cut to two bytes before it is judged", |rules| {
        rules.calls.take_class = |rules, due, weight, class, table| {
            take_class(rules, Slot(due.0 & 0xFFFF), weight, class, table)
        };
    }),
];
