//! The rounds known to bring B near φ × S: at each slot a frame due at once
//! and a heavier one due in the next.

use crate::hindsight::recorded::{Taking, Takings};
use crate::round::Round;

/// The fewest slots that such a round has.
pub const FEWEST: u32 = 2;

/// With these weights, by due slot.
pub fn with_weights(slots: u32, mut weight: impl FnMut(u32) -> u32) -> Takings {
    let last = slots - 1;
    let mut all = Vec::new();
    for slot in 0..slots {
        for due in slot..=last.min(slot + 1) {
            let weight = weight(due);
            all.push(Taking { slot, due, weight });
        }
    }
    Takings { last, all }
}

/// With the weights 1, 2, 5, 13, 34, 89 and so on, each too light by little to
/// be sent a slot early.
pub fn family(slots: u32) -> Takings {
    with_weights(slots, |due| {
        let next = |(weight, next): (u32, u32)| (next, 3 * next - weight);
        (0..due).fold((1, 2), |pair, _| next(pair)).0
    })
}

/// The one with the most slots whose weights can all be taken.
pub fn longest() -> Takings {
    let fits = |round: &Takings| {
        let mut weights = round.all.iter().map(|taking| taking.weight);
        weights.all(|weight| weight <= Round::WEIGHT.0)
    };
    let families = (FEWEST..).map(family).take_while(fits);
    families.last().expect("the shortest fits")
}

#[cfg(test)]
mod tests {
    use super::*;
    use crate::hindsight::check::check;
    use crate::hindsight::recorded;
    use crate::rules::Rules;

    #[test]
    fn sends_what_is_due_at_once() {
        let found = check(Rules::PAPERS, &family(6).script()).expect("every claim");
        assert_eq!(found.gain.sent, 1 + 2 + 5 + 13 + 34 + 89);
        assert_eq!(found.gain.best, 2 + 5 + 13 + 34 + 89 + 89);
    }

    #[test]
    fn the_longest_is_recorded() {
        let longest = longest();
        let heaviest = longest.all.iter().map(|taking| taking.weight).max();
        assert_eq!((longest.last, heaviest), (17, Some(9_227_465)));
        let all = recorded::all().expect("recorded rounds");
        assert!(all.iter().any(|one| one.round == longest));
    }
}
