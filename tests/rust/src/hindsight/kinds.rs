//! The kinds of rounds.

use crate::compare::draw::Draw;
use crate::hand;
use crate::hindsight::changes::changed;
use crate::hindsight::drawn::{large, rising, small};
use crate::hindsight::recorded;
use crate::hindsight::script::Script;
use crate::kind::Kind;

/// Gives one round.
pub type Case = fn(&mut Draw, u64) -> Script;

pub const KINDS: &[Kind<Case>] = &[
    Kind::fixed("hand", hand::ROUNDS.len() as u64, by_hand),
    Kind::drawn("small", 200_000, small),
    Kind::drawn("rising", 60_000, rising),
    Kind::drawn("changed", 60_000, near_recorded),
    Kind::drawn("large", 300, large),
];

fn by_hand(_: &mut Draw, number: u64) -> Script {
    Script::by_hand(hand::ROUNDS[number as usize].1)
}

/// A recorded round with some changes, as these come near the bound.
fn near_recorded(draw: &mut Draw, _: u64) -> Script {
    let all = recorded::all().expect("recorded rounds");
    let round = &draw.pick(&all).round;
    changed(draw, round).script()
}

/// A round of some kind, and which it is.
pub struct Named {
    pub kind: &'static str,
    pub is_drawn: bool,
    pub number: u64,
    pub script: Script,
}

/// Every round of every kind.
pub fn rounds(seed: u64, factor: f64) -> impl Iterator<Item = Named> {
    let places = KINDS.iter().enumerate();
    places.flat_map(move |(place, kind)| {
        let draws = kind.draws(place, seed, factor);
        draws.map(|(number, mut draw)| Named {
            kind: kind.name,
            is_drawn: kind.is_drawn,
            number,
            script: (kind.case)(&mut draw, number),
        })
    })
}
