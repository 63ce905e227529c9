//! Named faults. The second implementation can be given one of them, so that
//! a comparison can show that it would notice it: a fault is a change of the
//! papers' rules.

mod change;
mod class_lines;
mod classes;
mod leaping;
mod listing;
mod opening;
mod payload;
mod picking;
mod program;
mod questions;
mod reading;
mod sealing;
mod soundness;
mod taking;
mod writing;

use crate::call::CallName;
use crate::ending::Named;
use crate::rules::Rules;

/// A fault's name, what it does, and how the rules are changed to have it.
type Entry = (&'static str, &'static str, fn(&mut Rules));

/// The faults that replies to this call show.
struct Shown {
    by: CallName,
    /// Whether text lines show them too, if they have the call.
    in_lines: bool,
    all: &'static [Entry],
}

const fn shown(by: CallName, all: &'static [Entry]) -> Shown {
    let in_lines = true;
    Shown { by, in_lines, all }
}

/// No line can show these: the table's length and its bytes are the program's
/// own, a slot has four digits, and a round of 4,096 slots gives out at most
/// 1,024 tickets in each, far fewer than 16,777,215; a class has two digits, and a
/// reply to 04 is that to 01.
const fn hidden_in_lines(by: CallName, all: &'static [Entry]) -> Shown {
    let in_lines = false;
    Shown { by, in_lines, all }
}

const ALL: &[Shown] = &[
    shown(CallName::Open, opening::FAULTS),
    hidden_in_lines(CallName::Open, opening::HIDDEN),
    shown(CallName::Take, taking::FAULTS),
    hidden_in_lines(CallName::Take, taking::HIDDEN),
    shown(CallName::Seal, sealing::SEALING),
    shown(CallName::Open, sealing::OPENING),
    shown(CallName::Take, sealing::TAKING),
    shown(CallName::TakeClass, classes::TAKING),
    hidden_in_lines(CallName::TakeClass, classes::HIDDEN),
    shown(CallName::Take, soundness::FAULTS),
    hidden_in_lines(CallName::Take, soundness::HIDDEN),
    shown(CallName::Send, picking::FAULTS),
    shown(CallName::Send, leaping::FAULTS),
    shown(CallName::Send, sealing::SENDING),
    shown(CallName::Send, classes::SENDING),
    shown(CallName::Mark, questions::MARK),
    shown(CallName::Mark, sealing::MARK),
    shown(CallName::Total, questions::TOTAL),
    shown(CallName::Total, sealing::TOTAL),
    shown(CallName::Substitute, questions::SUBSTITUTE),
    shown(CallName::Substitute, sealing::SUBSTITUTE),
    shown(CallName::Substitute, classes::SUBSTITUTE),
    shown(CallName::List, listing::FAULTS),
    shown(CallName::List, sealing::LISTING),
    shown(CallName::Read, reading::FAULTS),
    shown(CallName::Read, class_lines::READING),
    hidden_in_lines(CallName::Read, class_lines::HIDDEN),
    shown(CallName::Payload, payload::FAULTS),
    shown(CallName::Payload, class_lines::PAYLOAD),
    shown(CallName::Write, writing::FAULTS),
    shown(CallName::Write, class_lines::WRITING),
    shown(CallName::Reply, program::FAULTS),
    shown(CallName::Reply, class_lines::REPLIES),
];

#[derive(Clone, Copy)]
pub struct Fault {
    pub name: &'static str,
    says: &'static str,
    change: fn(&mut Rules),
    pub shown_by: CallName,
    pub in_lines: bool,
}

impl Fault {
    pub fn all() -> impl Iterator<Item = Fault> {
        ALL.iter().flat_map(|shown| {
            shown.all.iter().map(|&(name, says, change)| Fault {
                name,
                says,
                change,
                shown_by: shown.by,
                in_lines: shown.in_lines,
            })
        })
    }

    /// The faults that some of these calls show.
    pub fn shown(by: &[CallName]) -> Vec<Fault> {
        let shown = |fault: &Fault| by.contains(&fault.shown_by);
        Fault::all().filter(shown).collect()
    }

    pub fn named(name: &str) -> Option<Fault> {
        Fault::all().find(|fault| fault.name == name)
    }

    /// The papers' rules with this fault.
    pub fn rules(&self) -> Rules {
        let mut rules = Rules::PAPERS.clone();
        (self.change)(&mut rules);
        rules
    }
}

/// The papers' rules with the fault of this name.
pub fn with(name: &str) -> Rules {
    let fault = Fault::named(name).unwrap_or_else(|| panic!("no fault {name}"));
    fault.rules()
}

impl Named for Fault {
    fn says(&self) -> String {
        format!("{}: {}", self.name, self.says)
    }
}
