//! Long lists of calls on one table, refused ones included.

use crate::call::Call;
use crate::compare::bench::{Agreed, Bench};
use crate::compare::classes::{classes, taking, Classes};
use crate::compare::draw::Draw;
use crate::compare::tables::{weight, weights, Weights};
use crate::round::Round;
use crate::table::{decode, row_at};

/// What one list is drawn by.
struct List {
    last: u32,
    reach: u32,
    weights: Weights,
    classes: Classes,
    takes: u64,
    /// Whether it may be sealed.
    seals: bool,
}

fn list(draw: &mut Draw) -> List {
    let last = match draw.below(20) {
        0 => draw.between(200, 4_095),
        1..=6 => draw.between(10, 120),
        _ => draw.between(0, 12),
    };
    let reach = *draw.pick(&[1, 3, 8, last.max(1)]);
    List {
        last,
        reach,
        weights: weights(draw),
        classes: classes(draw),
        takes: *draw.pick(&[20, 40, 60, 80]),
        seals: draw.once_in(3),
    }
}

/// A due slot within the list's reach, at times a bad one.
fn due(draw: &mut Draw, list: &List, round: &Round) -> u32 {
    match draw.below(40) {
        0 => round.slot.0.wrapping_sub(1),
        1 => round.last.0 + 1,
        2 => draw.number() as u32,
        _ => (round.slot.0 + draw.below(u64::from(list.reach) + 1) as u32).min(round.last.0),
    }
}

fn call(draw: &mut Draw, list: &List, round: &Round) -> Call {
    let chance = draw.below(100);
    if chance < list.takes {
        let bad = draw.once_in(50);
        let weight = if bad {
            *draw.pick(&[0, 16_777_217, u32::MAX])
        } else {
            weight(draw, list.weights)
        };
        let due = due(draw, list, round);
        return taking(draw, due, weight, list.classes);
    }
    let over = round.slot > round.last;
    match draw.below(20) {
        0..=5 => Call::Mark {
            slot: due(draw, list, round),
        },
        6..=8 => Call::Total,
        9..=11 => Call::Substitute {
            ticket: draw.below(u64::from(round.next.0) + 2) as u32,
        },
        12 if over || draw.once_in(6) => Call::Open { last: list.last },
        13 if draw.once_in(8) => Call::Open {
            last: draw.number() as u32,
        },
        14 if list.seals && (over || draw.once_in(2)) => Call::Seal,
        _ => Call::Send,
    }
}

pub fn run(bench: &mut Bench, draw: &mut Draw, _: u64) -> Agreed<()> {
    let rows = match draw.below(20) {
        0 => draw.between(100, 1_024),
        1..=9 => draw.between(8, 40),
        _ => draw.between(1, 8),
    };
    let list = list(draw);
    let mut table: Vec<u8> = (0..row_at(rows as usize))
        .map(|_| draw.number() as u8)
        .collect();
    bench.check(Call::Take { due: 0, weight: 1 }, &mut table)?;
    bench.check(Call::Open { last: list.last }, &mut table)?;
    for _ in 0..draw.between(20, 400) {
        let round = decode(&table);
        let call = call(draw, &list, &round);
        bench.check(call, &mut table)?;
    }
    Ok(())
}
