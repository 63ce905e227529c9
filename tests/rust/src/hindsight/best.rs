//! B: the most that anyone could have sent, knowing every frame beforehand.

use crate::hindsight::account::Offer;
use std::cmp::Reverse;

/// Frames from heaviest to lightest, each kept if it and all kept before can
/// be given slots. Sets that can be given slots are a matroid's, so no other
/// choice weighs more.
pub fn best(offers: &[Offer]) -> u64 {
    let mut heaviest = offers.to_vec();
    heaviest.sort_by_key(|offer| Reverse(offer.weight));
    let mut slots = Slots::for_all(offers);
    heaviest.retain(|offer| slots.keeps(*offer));
    let weights = heaviest.iter().map(|offer| u64::from(offer.weight.0));
    weights.sum()
}

/// The frame that each slot is given to.
struct Slots {
    given: Vec<Option<Offer>>,
}

impl Slots {
    fn for_all(offers: &[Offer]) -> Slots {
        let ends = offers.iter().map(|offer| offer.to.0 as usize + 1);
        Slots {
            given: vec![None; ends.max().unwrap_or(0)],
        }
    }

    /// Gives a frame a slot if that can be, the others keeping one each.
    fn keeps(&mut self, offer: Offer) -> bool {
        let mut tried = vec![false; self.given.len()];
        self.place(offer, &mut tried)
    }

    /// Tries each slot of the frame once: a free one, or one whose own frame
    /// can go elsewhere.
    fn place(&mut self, offer: Offer, tried: &mut [bool]) -> bool {
        for slot in offer.from.0 as usize..=offer.to.0 as usize {
            if tried[slot] {
                continue;
            }
            tried[slot] = true;
            let free = match self.given[slot] {
                None => true,
                Some(other) => self.place(other, tried),
            };
            if free {
                self.given[slot] = Some(offer);
                return true;
            }
        }
        false
    }
}

#[cfg(test)]
mod tests {
    use super::*;
    use crate::compare::draw::Draw;
    use crate::counts::{Slot, Weight};

    fn offer(from: u32, to: u32, weight: u32) -> Offer {
        Offer {
            from: Slot(from),
            to: Slot(to),
            weight: Weight(weight),
        }
    }

    /// Over every way to give slots or none: a bit for each slot that is gone.
    fn by_force(offers: &[Offer], gone: u32) -> u64 {
        let Some((first, rest)) = offers.split_first() else {
            return 0;
        };
        let free = |slot: &u32| gone & 1 << slot == 0;
        let sends = |slot: u32| u64::from(first.weight.0) + by_force(rest, gone | 1 << slot);
        let sent = (first.from.0..=first.to.0).filter(free).map(sends);
        sent.chain([by_force(rest, gone)]).max().expect("one way")
    }

    fn drawn(draw: &mut Draw) -> Vec<Offer> {
        let last = draw.between(0, 5);
        let most = *draw.pick(&[1, 3, 20, 16_777_216]);
        let frames = draw.between(0, 7);
        let one = |_| {
            let from = draw.between(0, last);
            offer(from, draw.between(from, last), draw.between(1, most))
        };
        (0..frames).map(one).collect()
    }

    #[test]
    fn agrees_with_brute_force() {
        let mut draw = Draw::new(14);
        let mut left_out = 0;
        for _ in 0..20_000 {
            let offers = drawn(&mut draw);
            let found = best(&offers);
            assert_eq!(found, by_force(&offers, 0), "{offers:?}");
            let all: u64 = offers.iter().map(|offer| u64::from(offer.weight.0)).sum();
            left_out += usize::from(found < all);
        }
        assert!(left_out > 5_000);
    }

    #[test]
    fn two_never_share_a_slot() {
        assert_eq!(best(&[offer(0, 0, 4), offer(0, 0, 9)]), 9);
        assert_eq!(best(&[offer(1, 1, 4), offer(0, 1, 9)]), 13);
        assert_eq!(best(&[offer(0, 1, 4), offer(0, 1, 9), offer(0, 1, 5)]), 14);
    }

    #[test]
    fn none_goes_before_its_taking_or_after_its_due_slot() {
        assert_eq!(best(&[offer(1, 1, 4), offer(1, 1, 9)]), 9);
        assert_eq!(best(&[offer(1, 2, 4), offer(1, 1, 9)]), 13);
        assert_eq!(best(&[offer(0, 0, 4), offer(0, 2, 9), offer(0, 0, 8)]), 17);
        assert_eq!(best(&[]), 0);
    }
}
