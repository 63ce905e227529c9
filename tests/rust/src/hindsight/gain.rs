//! What a round comes to, and the claims about it.

use crate::hindsight::account::Account;
use crate::hindsight::best::best;
use std::fmt;

/// What was sent (S) and the most that could have been (B).
#[derive(Clone, Copy, PartialEq, Eq, Debug)]
pub struct Gain {
    pub sent: u64,
    pub best: u64,
}

#[derive(Clone, Copy, PartialEq, Eq, Debug)]
pub enum Claim {
    /// What was sent could have been sent.
    Possible,
    /// B is at most φ × S.
    Golden,
}

impl Gain {
    pub fn of(account: &Account) -> Gain {
        Gain {
            sent: account.sum(),
            best: best(&account.offers),
        }
    }

    pub fn breaks(self, claim: Claim) -> bool {
        match claim {
            Claim::Possible => self.sent > self.best,
            Claim::Golden => !within_golden(self.best, self.sent),
        }
    }

    /// B / S for the eye alone.
    pub fn ratio(self) -> f64 {
        let (best, sent) = self.parts();
        best as f64 / sent as f64
    }

    /// Whether B / S is larger here, in whole numbers.
    pub fn is_above(self, other: Gain) -> bool {
        let ((best, sent), (others_best, others_sent)) = (self.parts(), other.parts());
        best * others_sent > others_best * sent
    }

    /// The two of B / S, which is 1 where nothing could be sent.
    fn parts(self) -> (u128, u128) {
        match self.best {
            0 => (1, 1),
            best => (u128::from(best), u128::from(self.sent)),
        }
    }
}

/// B × B is at most B × S + S × S.
pub fn within_golden(best: u64, sent: u64) -> bool {
    let (best, sent) = (u128::from(best), u128::from(sent));
    best * best <= best * sent + sent * sent
}

impl fmt::Display for Gain {
    fn fmt(&self, out: &mut fmt::Formatter<'_>) -> fmt::Result {
        write!(out, "S {}, B {}", self.sent, self.best)
    }
}

impl fmt::Display for Claim {
    fn fmt(&self, out: &mut fmt::Formatter<'_>) -> fmt::Result {
        out.write_str(match self {
            Claim::Possible => "S is above B",
            Claim::Golden => "B × B is above B × S + S × S",
        })
    }
}

#[cfg(test)]
mod tests {
    use super::*;
    use crate::hindsight::script::Script;
    use crate::rules::Rules;

    fn gain(text: &str) -> (u64, u64) {
        let asked = Script::by_hand(text).play(Rules::PAPERS);
        let account = Account::of(&asked).expect("an account");
        assert!(account.is_over() && account.is_in_time());
        let gain = Gain::of(&account);
        (gain.sent, gain.best)
    }

    #[test]
    fn rounds_by_hand() {
        assert_eq!(gain("1; 0:4 1:10 S S"), (14, 14));
        assert_eq!(gain("1; 0:4 1:11 S S"), (11, 15));
        assert_eq!(gain("1; 0:4 1:10 S 1:11 S"), (15, 21));
        assert_eq!(gain("9; S S S S S S S S S S"), (0, 0));
    }

    /// Neighbours in Fibonacci's row come nearest to φ, once within, once not.
    #[test]
    fn fibonacci_takes_turns() {
        let (mut small, mut large, mut within) = (1u64, 1u64, true);
        for _ in 0..80 {
            assert_eq!(within_golden(large, small), within, "{large} {small}");
            (small, large, within) = (large, large + small, !within);
        }
        assert!(within_golden(0, 0) && !within_golden(1, 0) && within_golden(0, 1));
    }

    #[test]
    fn larger_ratios_are_above() {
        let gain = |sent, best| Gain { sent, best };
        assert!(gain(5, 8).is_above(gain(3, 4)) && !gain(3, 4).is_above(gain(5, 8)));
        assert!(!gain(10, 16).is_above(gain(5, 8)));
        assert!(gain(5, 8).is_above(gain(0, 0)) && !gain(0, 0).is_above(gain(5, 5)));
    }

    #[test]
    fn claims_break() {
        let broken = |sent, best| {
            let gain = Gain { sent, best };
            (gain.breaks(Claim::Possible), gain.breaks(Claim::Golden))
        };
        assert_eq!(broken(5, 5), (false, false));
        assert_eq!(broken(5, 4), (true, false));
        assert_eq!(broken(5, 8), (false, false));
        assert_eq!(broken(5, 9), (false, true));
    }
}
