//! Rounds to start a search from, and small changes of a round.

use crate::compare::draw::Draw;
use crate::hindsight::drawn::{golden, near};
use crate::hindsight::family;
use crate::hindsight::recorded::{Taking, Takings};
use crate::round::Round;

/// The most takings in a slot.
const CROWD: usize = 3;

/// Any takings.
pub fn drawn(draw: &mut Draw, slots: u32) -> Takings {
    let mut round = Takings {
        last: slots - 1,
        all: Vec::new(),
    };
    for _ in 0..draw.between(slots, 3 * slots) {
        add(draw, &mut round);
    }
    round
}

/// The family with each weight about φ × φ times the one before, up to the
/// greatest.
pub fn steep(draw: &mut Draw, slots: u32) -> Takings {
    family::with_weights(slots, |due| {
        let power = 2 * (due as i32 + 1 - slots as i32);
        near(golden(Round::WEIGHT.0, power), draw)
    })
}

/// The round with one to three changes.
pub fn changed(draw: &mut Draw, round: &Takings) -> Takings {
    let mut round = round.clone();
    for _ in 0..draw.between(1, 3) {
        change(draw, &mut round);
        round.all.sort_by_key(|taking| taking.slot);
    }
    round
}

fn change(draw: &mut Draw, round: &mut Takings) {
    if round.all.is_empty() || draw.once_in(12) {
        return add(draw, round);
    }
    let any = |draw: &mut Draw| draw.below(round.all.len() as u64) as usize;
    let (place, other) = (any(draw), any(draw));
    let taking = round.all[place];
    let alike = taking.slot == round.all[other].slot;
    match draw.below(12) {
        0 => _ = round.all.remove(place),
        1 => round.all[place].due = draw.between(taking.slot, round.last),
        2 => {
            let slot = draw.between(0, taking.due);
            if has_room(round, slot) {
                round.all[place].slot = slot;
            }
        }
        3 if alike => round.all.swap(place, other),
        _ => {
            let others = round.all[other].weight;
            round.all[place].weight = weight(draw, taking.weight, others);
        }
    }
}

/// A taking more, where its slot has not too many.
fn add(draw: &mut Draw, round: &mut Takings) {
    let slot = draw.between(0, round.last);
    if has_room(round, slot) {
        let due = draw.between(slot, round.last);
        let most = 1 << draw.between(0, 24);
        let weight = draw.between(1, most);
        round.all.push(Taking { slot, due, weight });
    }
}

fn has_room(round: &Takings, slot: u32) -> bool {
    let own = round.all.iter().filter(|taking| taking.slot == slot);
    own.count() < CROWD
}

/// Another weight: some part more or less, one more or less, another taking's
/// or that times a power of φ.
fn weight(draw: &mut Draw, own: u32, others: u32) -> u32 {
    let part = own >> draw.between(1, 24);
    let weight = match draw.below(5) {
        0 => own + part,
        1 => own - part,
        2 => others,
        3 => golden(others, draw.between(0, 6) as i32 - 3),
        _ => near(own, draw),
    };
    weight.clamp(1, Round::WEIGHT.0)
}

#[cfg(test)]
mod tests {
    use super::*;
    use crate::rules::Rules;

    /// Every change leaves takings that are all accepted, in the order of
    /// their slots, and not too many.
    #[test]
    fn changed_rounds_can_be_played() {
        let mut draw = Draw::new(5);
        for case in 0..300 {
            let slots = 2 + case % 7;
            let mut round = match case % 2 {
                0 => drawn(&mut draw, slots),
                _ => steep(&mut draw, slots),
            };
            for _ in 0..20 {
                round = changed(&mut draw, &round);
                assert!(round.all.is_sorted_by_key(|taking| taking.slot));
                let crowded = (0..slots).any(|slot| {
                    let own = round.all.iter().filter(|taking| taking.slot == slot);
                    own.count() > CROWD
                });
                assert!(!crowded && round.last == slots - 1, "{round:?}");
                let asked = round.script().play(Rules::PAPERS);
                assert!(asked.iter().all(|one| one.is_accepted()), "{round:?}");
            }
        }
    }
}
