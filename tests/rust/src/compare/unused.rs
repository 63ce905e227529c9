//! Two bytes of the unused rows at once, with values that cancel where bytes
//! or words are added instead of gathered.

use crate::call::Call;
use crate::compare::bench::{Agreed, Bench};
use crate::compare::draw::Draw;
use crate::hand;
use crate::table::{row_at, ROW};

/// One case for each unused byte of a table of four rows, two in use.
pub const CASES: u64 = 2 * ROW as u64;

pub fn run(bench: &mut Bench, _: &mut Draw, case: u64) -> Agreed<()> {
    let sound = hand::table(4, 3, &[(2, 1, 7, Some(1)), (5, 2, 9, None)]);
    let first = row_at(2) + case as usize;
    for second in first + 1..sound.len() {
        for (low, high) in [(128, 128), (1, 255), (255, 1)] {
            let mut table = sound.clone();
            table[first] = low;
            table[second] = high;
            bench.check_aside(Call::Take { due: 1, weight: 6 }, &table)?;
        }
    }
    Ok(())
}
