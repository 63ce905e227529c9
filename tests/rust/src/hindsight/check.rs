//! The check of one round, played by a library and by the second
//! implementation.

use crate::compare::library::Library;
use crate::hindsight::account::Account;
use crate::hindsight::gain::Gain;
use crate::hindsight::script::{Asked, Script};
use crate::rules::Rules;

/// A round of which every claim holds.
#[derive(Debug)]
pub struct Checked {
    pub asked: Vec<Asked>,
    pub gain: Gain,
    /// Whether a sealing was accepted: then the bound is not claimed.
    pub sealed: bool,
}

/// What is wrong with a round as this library plays it, if anything is.
pub fn check(library: &dyn Library, script: &Script) -> Result<Checked, String> {
    let asked = script.play(library);
    let own = Account::of(&asked)?;
    let other = Account::of(&script.play(Rules::PAPERS))?;
    let (gain, others) = (Gain::of(&own), Gain::of(&other));
    let claims = [
        (own.is_over(), "the round is not over"),
        (own.is_in_time(), "a frame went twice or out of its time"),
        (own.sealed == other.sealed, "sealed by one alone"),
        (own.offers == other.offers, "other frames were accepted"),
        (own.sent == other.sent, "other frames were sent"),
        (gain.sent == others.sent, "another S"),
        (gain.best == others.best, "another B"),
    ];
    if let Some((_, broken)) = claims.iter().find(|(holds, _)| !holds) {
        return Err(format!("{broken}: {gain}, the second's {others}"));
    }
    for claim in own.claims().iter().copied() {
        if gain.breaks(claim) {
            return Err(format!("{claim}: {gain}"));
        }
    }
    let sealed = own.sealed;
    Ok(Checked {
        asked,
        gain,
        sealed,
    })
}
