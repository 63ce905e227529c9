//! Full tables of 1,024 rows, rounds of up to 4,096 slots, and the longest
//! leaps; then sealed.

use crate::call::Call;
use crate::compare::bench::{Agreed, Bench};
use crate::compare::classes::{classes, taking};
use crate::compare::draw::Draw;
use crate::compare::tables::{round, table, Size};
use crate::hand;

pub fn run(bench: &mut Bench, draw: &mut Draw, case: u64) -> Agreed<()> {
    let mut table = drawn(draw, case);
    let classes = classes(draw);
    for _ in 0..4 {
        let slot = draw.between(0, 4_095);
        bench.check_aside(Call::Mark { slot }, &table)?;
        bench.check_aside(Call::Total, &table)?;
        let ticket = draw.between(0, 1_024);
        bench.check_aside(Call::Substitute { ticket }, &table)?;
        let weight = draw.between(1, 1_000);
        bench.check(taking(draw, slot, weight, classes), &mut table)?;
        bench.check(Call::Send, &mut table)?;
        let due = draw.between(0, 4_095);
        bench.check(taking(draw, due, weight, classes), &mut table)?;
    }
    bench.check(Call::Seal, &mut table)?;
    for _ in 0..4 {
        let due = draw.between(0, 4_095);
        bench.check(taking(draw, due, 1, classes), &mut table)?;
        bench.check_aside(Call::Mark { slot: due }, &table)?;
        bench.check(Call::Send, &mut table)?;
    }
    Ok(())
}

/// A table of 1,024 rows, once in four times one with a long leap.
pub fn drawn(draw: &mut Draw, number: u64) -> Vec<u8> {
    if number % 4 == 0 {
        return chain(draw.between(4, 1_024));
    }
    let last = *draw.pick(&[300, 1_023, 1_024, 2_000, 4_095]);
    let round = round(draw, Size { rows: 1_024, last }, 1_024);
    table(&round, 1_024)
}

/// A round whose first sending shifts as many members as can be.
fn chain(frames: u32) -> Vec<u8> {
    let last = frames - 2;
    let mut rows = vec![(1, 0, 1, Some(0))];
    for due in 1..=last {
        rows.push((due + 1, due, 2, Some(due % 4)));
    }
    rows.push((frames, last, 1, Some(3)));
    hand::table(1_024, last, &rows)
}

#[cfg(test)]
mod tests {
    use super::*;
    use crate::counts::Ticket;
    use crate::rules::Rules;
    use crate::send::{Out, Step};
    use crate::table::decode;

    /// All rows but the first, p and r are given an earlier due slot.
    #[test]
    fn chains_shift_all_but_three() {
        for frames in [4, 5, 6, 30, 1_023, 1_024] {
            let mut table = chain(frames);
            let before = decode(&table).rows;
            let step = Rules::PAPERS.send(&mut table);
            assert_eq!(step, Ok(Step::Leap(Out::Frame(Ticket(2)))));
            let after = decode(&table).rows;
            let old = |ticket| before.iter().find(|row| row.ticket == ticket);
            let shifted = after
                .iter()
                .filter(|row| Some(row.due) != old(row.ticket).map(|row| row.due));
            assert_eq!(shifted.count(), frames as usize - 3);
        }
    }
}
