//! Opening a round.

use crate::counts::Slot;
use crate::reasons::Asked;
use crate::refusal::Refusal;
use crate::round::Round;
use crate::rules::Rules;
use crate::table::encode;

/// Current slot 0, the last slot asked for, next ticket 1, and all else zero.
pub fn open(rules: &Rules, last: Slot, table: &mut [u8]) -> Result<(), Refusal> {
    Asked::new(rules, table, last).check(&rules.reasons.open)?;
    encode(&Round::opened(last), table);
    Ok(())
}
