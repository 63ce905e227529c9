//! Sealing a round: no frame will follow.

use crate::reasons::Asked;
use crate::refusal::Refusal;
use crate::rules::Rules;
use crate::table::SEALED;

/// Byte 10 of the head becomes 1, and nothing else changes. Sealing twice is
/// accepted.
pub fn seal(rules: &Rules, table: &mut [u8]) -> Result<(), Refusal> {
    Asked::new(rules, table, ()).check(&rules.reasons.seal)?;
    SEALED.put(table, 1);
    Ok(())
}
