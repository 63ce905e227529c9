//! Every byte of a small table set to every value.

use crate::call::Call;
use crate::compare::bench::{Agreed, Bench};
use crate::compare::draw::Draw;
use crate::hand;
use crate::table::{row_at, SLOT};

/// One case for each byte of the two tables below.
pub const CASES: u64 = 2 * LENGTH;
const LENGTH: u64 = row_at(4) as u64;

/// Two tables of four rows, two in use; the first with small numbers, the
/// second with values above 255 in every field.
fn base(which: u64) -> Vec<u8> {
    if which == 0 {
        return hand::table(4, 3, &[(2, 1, 7, Some(0)), (5, 2, 9, None)]);
    }
    let rows = [
        (0x01_0203, 0x0304, 0x10_0203, None),
        (0x01_0305, 0x0405, 0x0304, Some(2)),
    ];
    let mut table = hand::table(4, 0x0506, &rows);
    SLOT.put(&mut table, 0x0203);
    table
}

pub fn run(bench: &mut Bench, _: &mut Draw, case: u64) -> Agreed<()> {
    let mut table = base(case / LENGTH);
    let due = if case < LENGTH { 1 } else { 0x0405 };
    let ticket = if case < LENGTH { 2 } else { 0x01_0203 };
    let at = (case % LENGTH) as usize;
    for value in 0..=255 {
        table[at] = value;
        bench.check_aside(Call::Take { due, weight: 6 }, &table)?;
        let class = u32::from(value) % 5;
        bench.check_aside(
            Call::TakeClass {
                due,
                weight: 6,
                class,
            },
            &table,
        )?;
        bench.check_aside(Call::Mark { slot: due }, &table)?;
        bench.check_aside(Call::Total, &table)?;
        bench.check_aside(Call::Substitute { ticket }, &table)?;
        bench.check_aside(Call::Send, &table)?;
        bench.check_aside(Call::Seal, &table)?;
    }
    Ok(())
}
