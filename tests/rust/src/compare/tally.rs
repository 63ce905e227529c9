//! How often each outcome of each call was met, so that one sees what the
//! comparison went through.

use crate::call::CallName;
use std::collections::BTreeMap;

#[derive(Default, Clone)]
pub struct Tally {
    counts: BTreeMap<(CallName, Outcome), u64>,
    /// How often the class decided something, by its name.
    decided: BTreeMap<&'static str, u64>,
}

/// What a packed reply says, without its numbers.
#[derive(Clone, Copy, PartialEq, Eq, PartialOrd, Ord, Debug)]
pub enum Outcome {
    Accepted,
    /// What went out, and whether in a leap.
    Sent(u8, bool),
    /// What went out in a sealed round, and whether in a leap.
    SentSealed(u8, bool),
    /// A substitute that is a blank.
    Blank,
    Refused(u8),
}

impl Tally {
    /// One call more, of a round that is sealed or not.
    pub fn add(&mut self, call: CallName, reply: u64, sealed: bool) {
        let met = (call, outcome(call, reply, sealed));
        *self.counts.entry(met).or_default() += 1;
    }

    /// Once more the class decided this.
    pub fn decide(&mut self, part: &'static str) {
        *self.decided.entry(part).or_default() += 1;
    }

    pub fn decided(&self, part: &str) -> u64 {
        self.decided.get(part).copied().unwrap_or(0)
    }

    /// Calls in all.
    pub fn all(&self) -> u64 {
        self.counts.values().sum()
    }

    pub fn met(&self, call: CallName, outcome: Outcome) -> u64 {
        self.counts.get(&(call, outcome)).copied().unwrap_or(0)
    }

    /// One line for each call that was asked.
    pub fn lines(&self) -> Vec<String> {
        let mut lines = Vec::new();
        for call in CallName::ALL {
            let own = self.counts.iter().filter(|((name, _), _)| name == call);
            let told: Vec<String> = own
                .map(|((_, outcome), count)| format!("{} {count}", said(*outcome)))
                .collect();
            if !told.is_empty() {
                lines.push(format!("{call:?}: {}", told.join(", ")));
            }
        }
        lines
    }
}

fn outcome(call: CallName, reply: u64, sealed: bool) -> Outcome {
    let refusal = (reply & 0xFF) as u8;
    let (what, leap) = ((reply >> 32 & 3) as u8, reply >> 34 & 1 == 1);
    match call {
        _ if refusal != 0 => Outcome::Refused(refusal),
        CallName::Send if sealed => Outcome::SentSealed(what, leap),
        CallName::Send => Outcome::Sent(what, leap),
        CallName::Substitute if reply >> 8 & 0xFF_FFFF == 0 => Outcome::Blank,
        _ => Outcome::Accepted,
    }
}

fn said(outcome: Outcome) -> String {
    match outcome {
        Outcome::Accepted => "accepted".to_string(),
        Outcome::Blank => "blank".to_string(),
        Outcome::Refused(number) => format!("refused by {number}"),
        Outcome::Sent(what, leap) => {
            let what = ["silence", "frame", "kept blank", "?"][usize::from(what)];
            format!("{what}{}", if leap { " in a leap" } else { "" })
        }
        Outcome::SentSealed(what, leap) => {
            format!("sealed {}", said(Outcome::Sent(what, leap)))
        }
    }
}
