//! The papers' rules as one value: the second implementation is written over
//! it. Whatever a fault may change is a field here; `PAPERS` is what the papers
//! say.

use crate::calls::{Calls, CALLS};
use crate::command::{Lines, LINES};
use crate::counts::{Slot, Ticket, Weight};
use crate::golden::{self, Score};
use crate::leap::{self, Leap};
use crate::listing::{self, Entry};
use crate::order::{self, Item};
use crate::plan::{self, Plan};
use crate::reasons::{self, Frame, Order, WritingOrder};
use crate::round::{Round, Row};
use crate::send;
use crate::sound::CLAUSES;
use crate::substitute::{self, Substitutes};
use crate::tight;
use std::borrow::Cow;
use std::cmp::Ordering;

#[derive(Clone)]
pub struct Rules {
    /// When a table of a good length is sound.
    pub sound: Clauses,
    /// The reasons to refuse, in the order in which they are checked.
    pub reasons: Reasons,
    pub planning: Planning,
    /// The text lines, as they are read and as they are written.
    pub reading: Lines,
    pub writing: Lines,
    pub calls: Calls,
}

/// A clause by its name, and whether it holds of some bytes.
pub type Clause = (&'static str, fn(&[u8]) -> bool);
pub type Clauses = Cow<'static, [Clause]>;

pub fn hold(clauses: &[Clause], bytes: &[u8]) -> bool {
    clauses.iter().all(|(_, holds)| holds(bytes))
}

#[derive(Clone)]
pub struct Reasons {
    pub open: Order<Slot>,
    pub take: Order<Frame>,
    pub send: Order<()>,
    pub seal: Order<()>,
    pub mark: Order<Slot>,
    pub total: Order<()>,
    pub substitute: Order<Ticket>,
    pub list: Order<usize>,
    pub write: WritingOrder,
}

/// The definitions of plan and sending.
#[derive(Clone)]
pub struct Planning {
    pub plan: for<'a> fn(&Round, &'a Rules) -> Plan<'a>,
    /// Heavier comes first.
    pub heaviest_first: fn(&Item, &Item) -> Ordering,
    pub mark: fn(&Plan, Slot) -> Weight,
    pub substitute: fn(&Substitutes, Item) -> Item,
    /// Whether the first goes rather than the second, which is canonically
    /// before it.
    pub beats: fn(Score, Score) -> bool,
    /// Which plan member goes.
    pub goes: fn(&Round, &Substitutes) -> Item,
    /// What p's leap changes, with substitute r.
    pub leap: fn(&Plan, Item, Item) -> Leap,
    /// Whether a row leaves as the current slot rises to this one.
    pub is_late: fn(&Row, Slot) -> bool,
    /// What is listed of a plan.
    pub listed: fn(&Plan) -> Vec<Entry>,
}

impl Rules {
    pub const PAPERS: &'static Rules = &Rules {
        sound: Cow::Borrowed(CLAUSES),
        reasons: Reasons {
            open: Cow::Borrowed(reasons::OPENING),
            take: Cow::Borrowed(reasons::TAKING),
            send: Cow::Borrowed(reasons::SENDING),
            seal: Cow::Borrowed(reasons::SEALING),
            mark: Cow::Borrowed(reasons::MARK),
            total: Cow::Borrowed(reasons::TOTAL),
            substitute: Cow::Borrowed(reasons::SUBSTITUTE),
            list: Cow::Borrowed(reasons::LISTING),
            write: Cow::Borrowed(reasons::WRITING),
        },
        planning: Planning {
            plan: plan::plan,
            heaviest_first: order::heaviest_first,
            mark: tight::mark,
            substitute: substitute::substitute,
            beats: golden::beats,
            goes: send::goes,
            leap: leap::leap,
            is_late: send::is_late,
            listed: listing::listed,
        },
        reading: LINES,
        writing: LINES,
        calls: CALLS,
    };
}
