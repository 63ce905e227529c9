//! A search for rounds in which hindsight gains the most: from one round on to
//! changed ones that are no worse, again and again.

use crate::compare::draw::Draw;
use crate::compare::library::Library;
use crate::hindsight::account::Account;
use crate::hindsight::changes::{changed, drawn, steep};
use crate::hindsight::family::{family, FEWEST};
use crate::hindsight::gain::{Claim, Gain};
use crate::hindsight::recorded::{Recorded, Takings};
use std::time::{Duration, Instant};

/// The most slots of the rounds searched.
const MOST: u32 = 8;
/// So many changes without a better round end one climb.
const PATIENCE: u32 = 3_000;

/// The best round so far for each number of slots, and what finds better ones.
struct Search<'a> {
    library: &'a dyn Library,
    draw: Draw,
    best: Vec<Recorded>,
    played: u64,
}

/// Searches for so long, at least one climb for each number of slots, and goes
/// on from these rounds and the family. The best rounds, without the takings
/// that add nothing.
pub fn search(
    library: &dyn Library,
    from: Vec<Recorded>,
    seed: u64,
    time: Duration,
) -> Result<Vec<Recorded>, String> {
    let families = (FEWEST..=MOST).map(|slots| played(library, family(slots)));
    let mut search = Search {
        library,
        draw: Draw::new(seed),
        best: families.collect::<Result<_, _>>()?,
        played: 0,
    };
    for one in from {
        search.keep(played(library, one.round)?);
    }
    search.climb_on(time)?;
    let best = search.best.into_iter();
    best.map(|one| trimmed(library, one)).collect()
}

/// What a round comes to. One that breaks a claim ends the search.
pub fn played(library: &dyn Library, round: Takings) -> Result<Recorded, String> {
    let account = Account::of(&round.script().play(library))?;
    let gain = Gain::of(&account);
    let one = Recorded { round, gain };
    for claim in [Claim::Possible, Claim::Golden] {
        if gain.breaks(claim) {
            return Err(format!("{one}\nhindsight: {claim}"));
        }
    }
    Ok(one)
}

/// Without the takings that add nothing.
fn trimmed(library: &dyn Library, mut one: Recorded) -> Result<Recorded, String> {
    for place in (0..one.round.all.len()).rev() {
        let mut round = one.round.clone();
        round.all.remove(place);
        let less = played(library, round)?;
        if !one.gain.is_above(less.gain) {
            one = less;
        }
    }
    Ok(one)
}

impl Search<'_> {
    fn climb_on(&mut self, time: Duration) -> Result<(), String> {
        let (began, mut told) = (Instant::now(), Instant::now());
        loop {
            for slots in FEWEST..=MOST {
                let found = self.climb(slots)?;
                self.keep(found);
            }
            let over = began.elapsed() >= time;
            if over || told.elapsed() > Duration::from_secs(5) {
                told = Instant::now();
                self.tell();
            }
            if over {
                return Ok(());
            }
        }
    }

    /// The ratios of the best rounds, from the fewest slots to the most.
    fn tell(&self) {
        let ratio = |one: &Recorded| format!("{:.7}", one.gain.ratio());
        let ratios: Vec<String> = self.best.iter().map(ratio).collect();
        println!("  {} rounds played: {}", self.played, ratios.join(" "));
    }

    /// In the place of the best with as many slots, where it is better.
    fn keep(&mut self, one: Recorded) {
        let mut best = self.best.iter_mut();
        let alike = best.find(|best| best.round.last == one.round.last);
        if let Some(best) = alike.filter(|best| one.gain.is_above(best.gain)) {
            *best = one;
        }
    }

    /// One climb among the rounds of so many slots.
    fn climb(&mut self, slots: u32) -> Result<Recorded, String> {
        let start = self.start(slots);
        let mut current = played(self.library, start)?;
        let mut since = 0;
        while since < PATIENCE {
            let other = changed(&mut self.draw, &current.round);
            let other = played(self.library, other)?;
            self.played += 1;
            since += 1;
            if other.gain.is_above(current.gain) {
                since = 0;
            }
            if !current.gain.is_above(other.gain) {
                current = other;
            }
        }
        Ok(current)
    }

    /// A drawn round, a steep one, or the best so far with some changes.
    fn start(&mut self, slots: u32) -> Takings {
        match self.draw.below(3) {
            0 => drawn(&mut self.draw, slots),
            1 => steep(&mut self.draw, slots),
            _ => {
                let best = self.best[(slots - FEWEST) as usize].round.clone();
                let times = self.draw.between(0, 6);
                (0..times).fold(best, |round, _| changed(&mut self.draw, &round))
            }
        }
    }
}

#[cfg(test)]
mod tests {
    use super::*;
    use crate::faults;
    use crate::rules::Rules;

    fn searched(second: &Rules, from: Vec<Recorded>, seed: u64) -> Result<Vec<Recorded>, String> {
        search(second, from, seed, Duration::ZERO)
    }

    /// In some goes, each from where the last one ended, it loses nothing of
    /// what it started from, and for two slots it beats the round by hand.
    #[test]
    fn climbs() {
        let mut best = Vec::new();
        for seed in 1..=4 {
            best = searched(Rules::PAPERS, best, seed).expect("every claim");
        }
        assert_eq!(best.len(), 7);
        let by_hand = Gain { sent: 15, best: 21 };
        assert!(best[0].gain.is_above(by_hand), "{}", best[0]);
        for (one, slots) in best.iter().zip(FEWEST..) {
            assert_eq!(one.round.last + 1, slots);
            let start = played(Rules::PAPERS, family(slots)).expect("every claim");
            assert!(!start.gain.is_above(one.gain), "{one}");
        }
    }

    #[test]
    fn ends_with_a_round_that_breaks_a_claim() {
        let found = searched(&faults::with("SubstituteNotCounted"), Vec::new(), 1);
        let told = found.expect_err("a round");
        assert!(told.ends_with("B × B is above B × S + S × S"), "{told}");
    }
}
