//! The rounds by hand, with every mark, total and substitute on the way.

use crate::call::Call;
use crate::compare::bench::{Agreed, Bench};
use crate::compare::draw::Draw;
use crate::hand;
use crate::table::row_at;

/// One case for each round by hand, and one for the tables by hand.
pub const CASES: u64 = hand::ROUNDS.len() as u64 + 1;

/// Asks everything that leaves the table as it is.
fn questions(bench: &mut Bench, table: &[u8]) -> Agreed<()> {
    for slot in 0..=10 {
        bench.check_aside(Call::Mark { slot }, table)?;
    }
    for ticket in 0..=10 {
        bench.check_aside(Call::Substitute { ticket }, table)?;
    }
    bench.check_aside(Call::Total, table)?;
    Ok(())
}

pub fn run(bench: &mut Bench, _: &mut Draw, case: u64) -> Agreed<()> {
    let Some((_, text)) = hand::ROUNDS.get(case as usize) else {
        return tables(bench);
    };
    let mut table = vec![0; row_at(10)];
    for call in hand::calls(text) {
        bench.check(call, &mut table)?;
        questions(bench, &table)?;
    }
    Ok(())
}

/// Kept blanks where no list of calls brings them, sealed too.
fn tables(bench: &mut Bench) -> Agreed<()> {
    for &(last, rows) in hand::TABLES {
        let open = hand::table(rows.len(), last, rows);
        let mut sealed = open.clone();
        bench.check(Call::Seal, &mut sealed)?;
        for mut table in [open, sealed] {
            for _ in 0..3 {
                questions(bench, &table)?;
                bench.check(Call::Send, &mut table)?;
            }
        }
    }
    Ok(())
}
