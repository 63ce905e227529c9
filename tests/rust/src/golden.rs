//! Comparing w + φ × s exactly, φ = (1 + √5) / 2, in whole numbers.

use crate::counts::Weight;
use std::cmp::Ordering;

/// A member's weight and its substitute's, standing for w + φ × s.
#[derive(Clone, Copy, Debug)]
pub struct Score {
    pub own: Weight,
    pub substitute: Weight,
}

/// Whether a's w + φ × s is greater than b's.
pub fn beats(a: Score, b: Score) -> bool {
    compare(a, b).is_gt()
}

/// How a's w + φ × s compares with b's. It is greater just when x > φ y with
/// x = w − w', y = s' − s; twice that is 2 x − y > √5 y, and both sides squared are whole numbers.
pub fn compare(a: Score, b: Score) -> Ordering {
    let x = i128::from(a.own.0) - i128::from(b.own.0);
    let y = i128::from(b.substitute.0) - i128::from(a.substitute.0);
    signed_square(2 * x - y).cmp(&(5 * signed_square(y)))
}

/// The square, with the number's sign: it rises with the number.
fn signed_square(number: i128) -> i128 {
    number * number.abs()
}

#[cfg(test)]
mod tests {
    use super::*;

    fn score(own: u32, substitute: u32) -> Score {
        Score {
            own: Weight(own),
            substitute: Weight(substitute),
        }
    }

    fn greater(a: Score, b: Score) -> bool {
        beats(a, b)
    }

    /// x > φ y just when x y + y y < x x, for x above 0 and y not below 0.
    #[test]
    fn agrees_with_the_other_form() {
        for x in 0..200u32 {
            for y in 0..200u32 {
                let other = x > 0 && x * y + y * y < x * x;
                assert_eq!(greater(score(x, 0), score(0, y)), other, "{x} {y}");
                assert_eq!(greater(score(0, y), score(x, 0)), !other && y > 0, "{x} {y}");
            }
        }
    }

    #[test]
    fn only_equal_pairs_are_equal() {
        for a in 0..12u32 {
            for b in 0..144u32 {
                let found = compare(score(a, b / 12), score(a + 1, b % 12));
                assert_ne!(found, Ordering::Equal);
            }
        }
        assert_eq!(compare(score(3, 4), score(3, 4)), Ordering::Equal);
    }

    /// Neighbours in Fibonacci's row come nearest to φ, once above, once below.
    #[test]
    fn fibonacci_takes_turns() {
        let (mut small, mut large, mut above) = (1u32, 2u32, true);
        while large <= 16_777_216 {
            assert_eq!(greater(score(large, 0), score(0, small)), above, "{large} {small}");
            (small, large, above) = (large, large + small, !above);
        }
    }
}
