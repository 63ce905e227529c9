//! Drawn sound tables, each asked every call.

use crate::call::Call;
use crate::compare::bench::{Agreed, Bench};
use crate::compare::classes::{classes, taking};
use crate::compare::draw::Draw;
use crate::compare::tables::{drawn, size, weight, weights};
use crate::round::Round;

/// A slot of the round for the most part, at times one next to it.
fn near(draw: &mut Draw, round: &Round) -> u32 {
    let (slot, last) = (round.slot.0, round.last.0);
    match draw.below(12) {
        0 => slot.wrapping_sub(1),
        1 => last + 1,
        2 => slot,
        3 => last,
        _ => draw.between(slot.min(last), last),
    }
}

/// A waiting row's ticket for the most part.
fn ticket(draw: &mut Draw, round: &Round) -> u32 {
    match draw.below(12) {
        0 => 0,
        1 => draw.between(0, round.next.0),
        _ if round.rows.is_empty() => 1,
        _ => draw.pick(&round.rows).ticket.0,
    }
}

pub fn run(bench: &mut Bench, draw: &mut Draw, _: u64) -> Agreed<()> {
    let size = size(draw);
    let (table, round) = drawn(draw, size);
    for _ in 0..2 {
        let (weights, classes) = (weights(draw), classes(draw));
        let (due, weight) = (near(draw, &round), weight(draw, weights));
        let take = taking(draw, due, weight, classes);
        bench.check_aside(take, &table)?;
        bench.check_aside(
            Call::Mark {
                slot: near(draw, &round),
            },
            &table,
        )?;
        let ticket = ticket(draw, &round);
        bench.check_aside(Call::Substitute { ticket }, &table)?;
    }
    bench.check_aside(Call::Total, &table)?;
    bench.check_aside(
        Call::Open {
            last: near(draw, &round),
        },
        &table,
    )?;
    bench.check_aside(Call::Send, &table)?;
    bench.check_aside(Call::Seal, &table)?;
    Ok(())
}
