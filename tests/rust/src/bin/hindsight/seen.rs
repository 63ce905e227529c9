//! What was seen of the rounds played, and whether that is enough.

use second::call::{Call, CallName};
use second::compare::tally::{Outcome, Tally};
use second::ending::{enough, Ended};
use second::hindsight::check::Checked;
use second::hindsight::gain::Gain;

/// How often at least something was met, over all rounds.
const LEAST: &[(CallName, Outcome, usize)] = &[
    (CallName::Open, Outcome::Accepted, 250_000),
    (CallName::Open, Outcome::Refused(4), 30_000),
    (CallName::Take, Outcome::Accepted, 400_000),
    (CallName::Take, Outcome::Refused(5), 50_000),
    (CallName::Take, Outcome::Refused(6), 10_000),
    (CallName::Take, Outcome::Refused(7), 20_000),
    (CallName::Take, Outcome::Refused(9), 10_000),
    (CallName::Send, Outcome::Sent(0, false), 200_000),
    (CallName::Send, Outcome::Sent(1, false), 200_000),
    (CallName::Send, Outcome::Sent(1, true), 100_000),
    (CallName::Send, Outcome::Sent(2, false), 10_000),
    (CallName::Send, Outcome::SentSealed(0, false), 50_000),
    (CallName::Send, Outcome::SentSealed(1, false), 20_000),
    (CallName::Send, Outcome::SentSealed(2, false), 500),
    (CallName::Seal, Outcome::Accepted, 30_000),
    (CallName::Seal, Outcome::Refused(5), 50_000),
    (CallName::Take, Outcome::Refused(13), 10_000),
    (CallName::TakeClass, Outcome::Accepted, 600_000),
    (CallName::TakeClass, Outcome::Refused(9), 50_000),
    (CallName::TakeClass, Outcome::Refused(13), 40_000),
    (CallName::TakeClass, Outcome::Refused(14), 10_000),
    (CallName::Mark, Outcome::Accepted, 10_000),
    (CallName::Total, Outcome::Accepted, 10_000),
    (CallName::Substitute, Outcome::Accepted, 1_000),
];

/// In how many rounds at least hindsight gains; how many at least are sealed,
/// where the bound is not claimed, and not.
const GAINS: usize = 40_000;
const SEALED: usize = 30_000;
const UNSEALED: usize = 200_000;

/// The rounds of one kind.
struct Seen {
    kind: &'static str,
    rounds: usize,
    gains: usize,
    largest: Gain,
}

impl Seen {
    fn new(kind: &'static str) -> Seen {
        Seen {
            kind,
            rounds: 0,
            gains: 0,
            largest: Gain { sent: 1, best: 1 },
        }
    }

    fn add(&mut self, gain: Gain) {
        self.rounds += 1;
        self.gains += usize::from(gain.best > gain.sent);
        if gain.is_above(self.largest) {
            self.largest = gain;
        }
    }

    fn told(&self) -> String {
        let Seen { rounds, gains, .. } = self;
        let ratio = self.largest.ratio();
        format!("{rounds} rounds, B above S in {gains}, the largest B / S {ratio:.7}")
    }
}

pub struct All {
    all: Seen,
    kinds: Vec<Seen>,
    sealed: usize,
    tally: Tally,
}

impl All {
    pub fn new() -> All {
        All {
            all: Seen::new("all"),
            kinds: Vec::new(),
            sealed: 0,
            tally: Tally::default(),
        }
    }

    /// A round of the kind that was added last, or the first of the next.
    pub fn add(&mut self, kind: &'static str, found: &Checked) {
        if self.kinds.last().map(|seen| seen.kind) != Some(kind) {
            self.kinds.push(Seen::new(kind));
        }
        for seen in self.kinds.last_mut().into_iter().chain([&mut self.all]) {
            seen.add(found.gain);
        }
        self.sealed += usize::from(found.sealed);
        let mut sealed = false;
        for one in &found.asked {
            match one.call {
                Call::Open { .. } if one.is_accepted() => sealed = false,
                Call::Seal if one.is_accepted() => sealed = true,
                _ => (),
            }
            self.tally.add(one.call.name(), one.reply, sealed);
        }
    }

    /// Tells all of it; the last line, if enough was met.
    pub fn ended(&self) -> Ended {
        for line in self.tally.lines() {
            println!("  {line}");
        }
        for (call, outcome, least) in LEAST {
            let met = self.tally.met(*call, *outcome) as usize;
            enough("hindsight", &format!("{call:?} {outcome:?}"), met, *least)?;
        }
        enough("hindsight", "B above S", self.all.gains, GAINS)?;
        enough("hindsight", "sealed", self.sealed, SEALED)?;
        let claimed = self.all.rounds - self.sealed;
        enough("hindsight", "the bound is claimed", claimed, UNSEALED)?;
        for seen in &self.kinds {
            println!("  {}: {}", seen.kind, seen.told());
        }
        let largest = self.all.largest;
        Ok(format!("hindsight: {} ({largest})", self.all.told()))
    }
}
