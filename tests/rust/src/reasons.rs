//! The reasons to refuse, by the papers' numbers, and the order in which
//! each call checks them. The first that applies is given.

use crate::counts::{Class, Slot, Ticket, Weight};
use crate::listing::Entry;
use crate::plan::Plan;
use crate::refusal::Refusal;
use crate::round::Round;
use crate::rules::{hold, Rules};
use crate::table::{decode, rows_of};
use std::borrow::Cow;
use std::cell::OnceCell;

/// A reason to refuse a call with this argument, and whether it applies.
pub type Reason<A> = (Refusal, fn(&Asked<A>) -> bool);
pub type Order<A> = Cow<'static, [Reason<A>]>;

/// Opening is checked by 2 and 4, reading no old content.
pub const OPENING: &[Reason<Slot>] = &[
    (Refusal::Length, bad_length),
    (Refusal::LastTooLate, last_too_late),
];

/// Taking a frame is checked by 2, 3, 5 to 9, by 13 after 5 and by 14 after 7.
pub const TAKING: &[Reason<Frame>] = &[
    (Refusal::Length, bad_length),
    (Refusal::Unsound, unsound),
    (Refusal::Over, over),
    (Refusal::Sealed, sealed),
    (Refusal::Weight, bad_weight),
    (Refusal::Slot, |asked| outside(asked, asked.argument.due)),
    (Refusal::Class, bad_class),
    (Refusal::Tickets, no_ticket_left),
    (Refusal::Full, full),
];

pub const SENDING: &[Reason<()>] = &[
    (Refusal::Length, bad_length),
    (Refusal::Unsound, unsound),
    (Refusal::Over, over),
];

pub const SEALING: &[Reason<()>] = SENDING;

pub const MARK: &[Reason<Slot>] = &[
    (Refusal::Length, bad_length),
    (Refusal::Unsound, unsound),
    (Refusal::Over, over),
    (Refusal::Slot, |asked| outside(asked, asked.argument)),
];

pub const TOTAL: &[Reason<()>] = SENDING;

pub const SUBSTITUTE: &[Reason<Ticket>] = &[
    (Refusal::Length, bad_length),
    (Refusal::Unsound, unsound),
    (Refusal::Over, over),
    (Refusal::NoRow, in_no_row),
    (Refusal::OutsidePlan, not_in_plan),
];

/// Listing, with the entries lent as its argument.
pub const LISTING: &[Reason<usize>] = &[
    (Refusal::Length, bad_length),
    (Refusal::Unsound, unsound),
    (Refusal::Over, over),
    (Refusal::Short, |asked| asked.argument < asked.listed().len()),
];

/// 2: the table's length is not 16 + 24 × n for n from 1 to 1,024.
fn bad_length<A>(asked: &Asked<A>) -> bool {
    rows_of(asked.table.len()).is_none()
}

/// 3: the table is not sound.
pub fn unsound<A>(asked: &Asked<A>) -> bool {
    !hold(&asked.rules.sound, asked.table)
}

/// 4: the last slot asked for is above 4,095.
fn last_too_late(asked: &Asked<Slot>) -> bool {
    asked.argument > Round::LAST
}

/// 5: the current slot is past the last.
fn over<A>(asked: &Asked<A>) -> bool {
    asked.round().slot > asked.round().last
}

/// 6: the weight is 0 or above 16,777,216.
fn bad_weight(asked: &Asked<Frame>) -> bool {
    let weight = asked.argument.weight;
    weight == Weight(0) || weight > Round::WEIGHT
}

/// 7: the slot is before the current or after the last.
pub fn outside<A>(asked: &Asked<A>, slot: Slot) -> bool {
    slot < asked.round().slot || slot > asked.round().last
}

/// 8: the next ticket is 16,777,216.
fn no_ticket_left<A>(asked: &Asked<A>) -> bool {
    asked.round().next == Round::TICKET
}

/// 9: every row is in use.
fn full<A>(asked: &Asked<A>) -> bool {
    Some(asked.round().rows.len()) == rows_of(asked.table.len())
}

/// 10: the ticket is in no row.
pub fn in_no_row(asked: &Asked<Ticket>) -> bool {
    asked.round().place(asked.argument).is_none()
}

/// 11: the ticket's row is not in the plan.
fn not_in_plan(asked: &Asked<Ticket>) -> bool {
    asked.plan().member(asked.argument).is_none()
}

/// 13: the round is sealed.
pub fn sealed<A>(asked: &Asked<A>) -> bool {
    asked.round().sealed
}

/// 14: the class is above 3.
fn bad_class(asked: &Asked<Frame>) -> bool {
    asked.argument.class > Round::CLASS
}

/// A reason to refuse a line to be written: by the line, if what is given
/// could stand in one, and the bytes lent.
pub type WritingReason = (Refusal, fn(Option<&[u8]>, usize) -> bool);
pub type WritingOrder = Cow<'static, [WritingReason]>;

/// 1, then 12: the buffer is shorter than the line.
pub const WRITING: &[WritingReason] = &[
    (Refusal::Line, |line, _| line.is_none()),
    (Refusal::Short, |line, room| line.is_some_and(|line| room < line.len())),
];

/// What a taking is given.
#[derive(Clone, Copy, PartialEq, Eq, Debug)]
pub struct Frame {
    pub due: Slot,
    pub weight: Weight,
    pub class: Class,
}

/// A call on a lent table, as it is before the call, with its argument.
pub struct Asked<'a, A> {
    pub rules: &'a Rules,
    pub table: &'a [u8],
    pub argument: A,
    round: OnceCell<Round>,
    plan: OnceCell<Plan<'a>>,
}

impl<'a, A> Asked<'a, A> {
    pub fn new(rules: &'a Rules, table: &'a [u8], argument: A) -> Asked<'a, A> {
        Asked {
            rules,
            table,
            argument,
            round: OnceCell::new(),
            plan: OnceCell::new(),
        }
    }

    /// Refused by the first of these that applies.
    pub fn check(&self, order: &[Reason<A>]) -> Result<(), Refusal> {
        first(order, |applies| applies(self))
    }

    /// The round in it, unless one of these applies.
    pub fn accepted(self, order: &[Reason<A>]) -> Result<Round, Refusal> {
        self.check(order)?;
        let round = self.round.into_inner();
        Ok(round.unwrap_or_else(|| decode(self.table)))
    }

    /// The round in it, once 2 and 3 have let it through.
    pub fn round(&self) -> &Round {
        self.round.get_or_init(|| decode(self.table))
    }

    /// Its plan, once 5 has let it through too.
    pub fn plan(&self) -> &Plan<'a> {
        self.plan.get_or_init(|| Plan::of(self.round(), self.rules))
    }

    pub fn listed(&self) -> Vec<Entry> {
        (self.rules.planning.listed)(self.plan())
    }
}

pub fn first<Test>(
    order: &[(Refusal, Test)],
    applies: impl Fn(&Test) -> bool,
) -> Result<(), Refusal> {
    match order.iter().find(|(_, test)| applies(test)) {
        Some((refusal, _)) => Err(*refusal),
        None => Ok(()),
    }
}
