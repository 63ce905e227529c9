//! Drawn rounds, from an opening past the last slot: refused calls and
//! questions strewn in.

use crate::call::Call;
use crate::compare::classes::{classes, taking, Classes};
use crate::compare::draw::Draw;
use crate::compare::tables;
use crate::hindsight::script::Script;
use crate::round::Round;
use crate::table::row_at;

/// φ, near enough to draw weights by.
const PHI: f64 = 1.618_033_988_749_895;

/// A round of 1 to 8 rows and slots.
pub fn small(draw: &mut Draw, _: u64) -> Script {
    let rows = draw.between(1, 8);
    let last = draw.between(0, 7);
    let most = draw.between(1, 4);
    let round = Drawn::new(draw, last, most);
    script(draw, rows, &round)
}

/// A round of many rows and slots.
pub fn large(draw: &mut Draw, _: u64) -> Script {
    let rows = *draw.pick(&[64, 65, 100, 160, 1_024]);
    let last = draw.between(20, 99);
    let most = draw.between(2, 6);
    let round = Drawn::new(draw, last, most);
    script(draw, rows, &round)
}

/// In each slot a frame due at once and one due in the next slot, which weighs
/// about φ × φ times as much (there hindsight gains the most) or more (there
/// blanks are kept).
pub fn rising(draw: &mut Draw, _: u64) -> Script {
    let rows = draw.between(2, 8);
    let most = *draw.pick(&[7, 7, 7, 20]);
    let last = draw.between(1, most);
    let mut round = Drawn::new(draw, last, 1);
    round.weights = Weights::Rising {
        first: *draw.pick(&[1, 2, 5, 21, 4_181]),
        power: *draw.pick(&[2, 2, 3]),
    };
    script(draw, rows, &round)
}

/// How the weights of one round are drawn.
#[derive(Clone, Copy)]
enum Weights {
    /// As those of drawn tables.
    Table(tables::Weights),
    Equal(u32),
    /// This weight times a power of φ, or next to it.
    Golden(u32),
    /// Less the later it is due, but for a few heavy ones: so come long leaps.
    Falling(u32),
    /// The first slot's, times this power of φ from slot to slot.
    Rising {
        first: u32,
        power: u32,
    },
}

/// What one round is drawn by.
struct Drawn {
    last: u32,
    /// How far ahead of the current slot frames are due.
    reach: u32,
    /// The most takings in a slot.
    most: u32,
    /// The last slot with takings; what waits then is all that can go.
    until: u32,
    weights: Weights,
    classes: Classes,
    /// Once in so many takings something else is asked or refused.
    other_once_in: u64,
    /// The slot in which it is sealed, if it is.
    seal_at: Option<u32>,
}

impl Drawn {
    fn new(draw: &mut Draw, last: u32, most: u32) -> Drawn {
        let weights = match draw.below(8) {
            0 => Weights::Equal(*draw.pick(&[1, 7, Round::WEIGHT.0])),
            1..=2 => Weights::Golden(*draw.pick(&[1, 3, 100, 1_000_000])),
            3 => Weights::Falling(*draw.pick(&[4, 9, 30])),
            _ => Weights::Table(tables::weights(draw)),
        };
        Drawn {
            last,
            reach: *draw.pick(&[0, 1, 1, 2, 3, last]),
            most,
            until: *draw.pick(&[last, last / 2, 1]),
            weights,
            classes: classes(draw),
            other_once_in: *draw.pick(&[2, 5, 1_000]),
            seal_at: draw.once_in(5).then(|| draw.between(0, last)),
        }
    }

    /// The takings of a slot, and what stands among them.
    fn takings(&self, draw: &mut Draw, slot: u32, calls: &mut Vec<Call>) {
        if matches!(self.weights, Weights::Rising { .. }) {
            self.rising_pair(draw, slot, calls);
        }
        for _ in 0..draw.between(0, self.most) {
            let later = draw.between(0, self.reach.min(self.last - slot));
            let weight = self.weight(draw, slot, later);
            let due = slot + later;
            calls.push(taking(draw, due, weight, self.classes));
            if draw.once_in(self.other_once_in) {
                calls.push(self.other(draw, slot));
            }
        }
    }

    /// Either of the two may be missing, and they come in either order.
    fn rising_pair(&self, draw: &mut Draw, slot: u32, calls: &mut Vec<Call>) {
        let mut pair = Vec::new();
        for due in slot..=self.last.min(slot + 1) {
            let weight = self.weight(draw, slot, due - slot);
            pair.push(taking(draw, due, weight, self.classes));
        }
        if draw.once_in(2) {
            pair.reverse();
        }
        pair.retain(|_| !draw.once_in(20));
        calls.extend(pair);
    }

    fn weight(&self, draw: &mut Draw, slot: u32, later: u32) -> u32 {
        match self.weights {
            Weights::Table(weights) => tables::weight(draw, weights),
            Weights::Equal(weight) => weight,
            Weights::Golden(weight) => near(golden(weight, draw.between(0, 5) as i32), draw),
            Weights::Falling(most) => {
                let heavy = if draw.once_in(5) { 4 } else { 1 };
                heavy * (most / (later + 1) + draw.between(1, 3))
            }
            Weights::Rising { first, power } => {
                near(golden(first, (power * (slot + later)) as i32), draw)
            }
        }
    }

    /// A refused taking or opening, or a question.
    fn other(&self, draw: &mut Draw, slot: u32) -> Call {
        let weight = draw.between(1, 99);
        match draw.below(8) {
            0 => refused_opening(draw),
            1 => Call::Take {
                due: slot,
                weight: *draw.pick(&[0, Round::WEIGHT.0 + 1, u32::MAX]),
            },
            2 if slot > 0 => Call::Take {
                due: draw.between(0, slot - 1),
                weight,
            },
            2..=3 => Call::Take {
                due: self.last + draw.between(1, 9),
                weight,
            },
            4 => Call::Total,
            5 => Call::Substitute {
                ticket: draw.between(0, 3 * slot + 3),
            },
            _ => Call::Mark {
                slot: draw.between(0, self.last + 1),
            },
        }
    }
}

fn refused_opening(draw: &mut Draw) -> Call {
    Call::Open {
        last: draw.between(Round::LAST.0 + 1, u32::MAX),
    }
}

/// A weight times a power of φ, as a whole number that can be taken.
pub fn golden(weight: u32, power: i32) -> u32 {
    let product = f64::from(weight) * PHI.powi(power);
    (product.round() as u64).clamp(1, u64::from(Round::WEIGHT.0)) as u32
}

/// The weight, or one next to it.
pub fn near(weight: u32, draw: &mut Draw) -> u32 {
    (weight + draw.between(0, 2)).clamp(2, Round::WEIGHT.0 + 1) - 1
}

/// The round over a table of arbitrary bytes. At times an opening was refused
/// or another round broken off before it.
fn script(draw: &mut Draw, rows: u32, round: &Drawn) -> Script {
    let mut calls = Vec::new();
    if draw.once_in(8) {
        calls.push(refused_opening(draw));
    }
    if draw.once_in(12) {
        let end = draw.between(0, round.last);
        played(draw, round, end, &mut calls);
    }
    played(draw, round, round.last + 1, &mut calls);
    if draw.once_in(3) {
        calls.push(Call::Send);
        calls.push(Call::Take {
            due: round.last,
            weight: 1,
        });
        calls.push(round.other(draw, round.last));
        calls.push(Call::Seal);
    }
    let byte = |_| draw.number() as u8;
    Script {
        table: (0..row_at(rows as usize)).map(byte).collect(),
        calls,
    }
}

/// An opening, and the slots before this one.
fn played(draw: &mut Draw, round: &Drawn, end: u32, calls: &mut Vec<Call>) {
    calls.push(Call::Open { last: round.last });
    for slot in 0..end {
        if slot <= round.until {
            round.takings(draw, slot, calls);
        }
        if round.seal_at == Some(slot) {
            calls.push(Call::Seal);
        }
        calls.push(Call::Send);
    }
}
