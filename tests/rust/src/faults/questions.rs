//! Faults of mark, total and substitute.

use super::change::{before, reason};
use super::Entry;
use crate::counts::{Ticket, Weight};
use crate::plan::Plan;
use crate::questions::{mark, substitute, total, Substitute};
use crate::reasons::in_no_row;
use crate::refusal::Refusal;
use crate::round::Row;
use crate::table::{decode, LAST};

pub const MARK: &[Entry] = &[
    ("MarkBySlotAlone", "the mark is over members due by the slot itself", |rules| {
        rules.planning.mark = |plan, slot| plan.smallest(i64::from(plan.slot.0), slot);
    }),
    ("MarkInSegmentAlone", "the mark is over the slot's own segment", |rules| {
        rules.planning.mark =
            |plan, slot| plan.smallest(plan.tight_before(slot) + 1, plan.tight_from(slot));
    }),
    ("MarkPastLastAnswered", "a slot after the last gets mark 0, not 7", |rules| {
        rules.calls.mark = |rules, slot, table| match mark(rules, slot, table) {
            Err(Refusal::Slot) if slot.0 > LAST.get(table) => Ok(Weight(0)),
            answer => answer,
        };
    }),
];

pub const TOTAL: &[Entry] = &[
    ("TotalWithoutKeptBlanks", "the total leaves out kept blanks", |rules| {
        rules.calls.total = |rules, table| {
            total(rules, table)?;
            let round = decode(table);
            let plan = Plan::of(&round, rules);
            let frame = |row: &&Row| !row.kept && plan.member(row.ticket).is_some();
            Ok(weight(round.rows.iter().filter(frame)))
        };
    }),
    ("TotalOfAllRows", "the total is over all waiting rows", |rules| {
        rules.calls.total = |rules, table| {
            total(rules, table)?;
            Ok(weight(decode(table).rows.iter()))
        };
    }),
];

pub const SUBSTITUTE: &[Entry] = &[
    ("OutsidePlanAnswered", "a row outside the plan gets itself, not 11", |rules| {
        rules.calls.substitute = |rules, ticket, table| match substitute(rules, ticket, table) {
            Err(Refusal::OutsidePlan) => Ok(Substitute::Ticket(ticket)),
            answer => answer,
        };
    }),
    ("TicketZeroIsBlank", "ticket 0 gets 11, not 10", |rules| {
        reason(&mut rules.reasons.substitute, Refusal::NoRow, |asked| {
            in_no_row(asked) && asked.argument != Ticket(0)
        });
    }),
    ("ElevenBeforeTen", "a ticket in no row gets 11", |rules| {
        before(&mut rules.reasons.substitute, Refusal::OutsidePlan, Refusal::NoRow);
    }),
];

fn weight<'a>(rows: impl Iterator<Item = &'a Row>) -> u64 {
    rows.map(|row| u64::from(row.weight.0)).sum()
}
