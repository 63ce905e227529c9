//! Tables of every short length, and of lengths around the longest.

use crate::call::Call;
use crate::compare::bench::{Agreed, Bench};
use crate::compare::draw::Draw;
use crate::round::Round;
use crate::table::{row_at, HEAD, LAST, NEXT};

/// Lengths 0 to 100, then 30 less than the longest to 30 more.
pub const CASES: u64 = SHORT + 61;
const SHORT: u64 = 101;

pub fn length(case: u64) -> usize {
    if case < SHORT {
        case as usize
    } else {
        row_at(Round::ROWS) - 30 + (case - SHORT) as usize
    }
}

/// A round just opened with last slot 9, as far as the length goes.
pub fn opened(length: usize) -> Vec<u8> {
    let mut table = vec![0; length.max(HEAD)];
    LAST.put(&mut table, 9);
    NEXT.put(&mut table, 1);
    table.truncate(length);
    table
}

pub fn run(bench: &mut Bench, draw: &mut Draw, case: u64) -> Agreed<()> {
    let length = length(case);
    let drawn = (0..length).map(|_| draw.number() as u8).collect();
    for table in [vec![0; length], vec![255; length], drawn, opened(length)] {
        for last in [0, 1, 4_095, 4_096, u32::MAX] {
            bench.check_aside(Call::Open { last }, &table)?;
        }
        for (due, weight) in [(3, 5), (9, 1 << 24), (10, 5), (3, 0)] {
            bench.check_aside(Call::Take { due, weight }, &table)?;
            for class in [0, 3, 4] {
                bench.check_aside(Call::TakeClass { due, weight, class }, &table)?;
            }
        }
        bench.check_aside(Call::Send, &table)?;
        bench.check_aside(Call::Seal, &table)?;
        bench.check_aside(Call::Mark { slot: 3 }, &table)?;
        bench.check_aside(Call::Total, &table)?;
        bench.check_aside(Call::Substitute { ticket: 1 }, &table)?;
    }
    Ok(())
}
