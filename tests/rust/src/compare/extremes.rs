//! Extreme numbers as arguments, on tables at their own limits.

use crate::call::Call;
use crate::compare::bench::{Agreed, Bench};
use crate::compare::draw::Draw;
use crate::compare::tables::table;
use crate::counts::{Class, Slot, Ticket, Weight};
use crate::round::{Round, Row};

pub const NUMBERS: &[u32] = &[
    0,
    1,
    2,
    255,
    256,
    4_094,
    4_095,
    4_096,
    4_097,
    65_535,
    65_536,
    65_537,
    69_631,
    16_777_214,
    16_777_215,
    16_777_216,
    16_777_217,
    33_554_432,
    2_147_483_648,
    4_294_967_295,
];

/// Every choice of the five below.
pub const CASES: u64 = 4 * 4 * 4 * 3 * 2;

/// One of the rounds at a limit: last slot, current slot, next ticket, rows
/// in use of three, and whether it is sealed.
fn round(case: u64) -> Round {
    let last = [0, 3, 4_094, 4_095][(case % 4) as usize];
    let slot = [0, last / 2, last, last + 1][(case / 4 % 4) as usize];
    let next = [4, 1_000, 16_777_215, 16_777_216][(case / 16 % 4) as usize];
    let used = if slot > last {
        0
    } else {
        [0, 2, 3][(case / 64 % 3) as usize]
    };
    let row = |place: u32| {
        let due = Slot(if place == 1 { slot } else { last });
        let weight = Weight([1, 16_777_216, 16_777_215][place as usize]);
        let class = (place < 2).then_some(Class(3 * place));
        Row::of_kind(class, Ticket(next - 3 + place), due, weight)
    };
    let rows = (0..used).map(row).collect();
    Round {
        slot: Slot(slot),
        next: Ticket(next),
        sealed: case / 192 == 1,
        rows,
        ..Round::opened(Slot(last))
    }
}

pub fn run(bench: &mut Bench, _: &mut Draw, case: u64) -> Agreed<()> {
    let round = round(case);
    let table = table(&round, 3);
    let own = [
        round.slot.0,
        round.slot.0 + 1,
        round.last.0,
        round.last.0 + 1,
    ];
    let tickets = [
        round.next.0,
        round.next.0 - 1,
        round.next.0 - 2,
        round.next.0 - 3,
    ];
    bench.check_aside(Call::Send, &table)?;
    bench.check_aside(Call::Seal, &table)?;
    bench.check_aside(Call::Total, &table)?;
    for first in NUMBERS.iter().chain(&own).copied() {
        bench.check_aside(Call::Open { last: first }, &table)?;
        bench.check_aside(Call::Mark { slot: first }, &table)?;
        for weight in NUMBERS.iter().copied() {
            bench.check_aside(Call::Take { due: first, weight }, &table)?;
        }
        for class in [3, 4].iter().chain(NUMBERS).copied() {
            for weight in [0, 1, 16_777_216] {
                let due = first;
                bench.check_aside(Call::TakeClass { due, weight, class }, &table)?;
            }
        }
    }
    for ticket in NUMBERS.iter().chain(&tickets).copied() {
        bench.check_aside(Call::Substitute { ticket }, &table)?;
    }
    Ok(())
}
