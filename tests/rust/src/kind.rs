//! A kind of input: its name, how many cases it has, and what gives one.

use crate::compare::draw::Draw;

pub struct Kind<Case> {
    pub name: &'static str,
    count: u64,
    /// Whether the factor makes them more; otherwise they are all there are.
    pub is_drawn: bool,
    pub case: Case,
}

impl<Case> Kind<Case> {
    pub const fn fixed(name: &'static str, count: u64, case: Case) -> Kind<Case> {
        let is_drawn = false;
        Kind {
            name,
            count,
            is_drawn,
            case,
        }
    }

    pub const fn drawn(name: &'static str, count: u64, case: Case) -> Kind<Case> {
        let is_drawn = true;
        Kind {
            name,
            count,
            is_drawn,
            case,
        }
    }

    /// How many cases there are.
    pub fn count(&self, factor: f64) -> u64 {
        match self.is_drawn {
            true => (self.count as f64 * factor).ceil() as u64,
            false => self.count,
        }
    }

    /// Each case's number and what it is drawn by, for the kind at this place
    /// among others.
    pub fn draws(&self, place: usize, seed: u64, factor: f64) -> impl Iterator<Item = (u64, Draw)> {
        let draw = move |number| Draw::for_case(seed, place as u64, number);
        (0..self.count(factor)).map(move |number| (number, draw(number)))
    }
}

/// The kinds, each with its number of cases.
pub fn counted<Case>(kinds: &[Kind<Case>], factor: f64) -> String {
    let counted = |kind: &Kind<Case>| format!("{} {}", kind.name, kind.count(factor));
    kinds.iter().map(counted).collect::<Vec<_>>().join(", ")
}
