//! Rounds that are sealed midway and played to their end and past it, with
//! takings and questions tried in between.

use crate::call::Call;
use crate::compare::bench::{Agreed, Bench};
use crate::compare::classes::{classes, taking, Classes};
use crate::compare::draw::Draw;
use crate::compare::tables::{weight, weights, Weights};
use crate::table::{decode, row_at};

/// What one round is drawn by.
struct Drawn {
    last: u32,
    /// How far ahead of the current slot frames are due.
    reach: u32,
    /// The most takings in a slot.
    most: u32,
    weights: Weights,
    classes: Classes,
    /// The slot in which it is sealed.
    seal_at: u32,
}

impl Drawn {
    fn new(draw: &mut Draw) -> Drawn {
        let last = match draw.below(20) {
            0 => draw.between(30, 120),
            _ => draw.between(0, 12),
        };
        Drawn {
            last,
            reach: *draw.pick(&[1, 3, 8, last.max(1)]),
            most: draw.between(1, 6),
            weights: weights(draw),
            classes: classes(draw),
            seal_at: draw.between(0, last.min(last / 2 + 1)),
        }
    }

    fn take(&self, draw: &mut Draw, slot: u32) -> Call {
        let due = (slot + draw.between(0, self.reach)).min(self.last);
        let weight = weight(draw, self.weights);
        taking(draw, due, weight, self.classes)
    }
}

pub fn run(bench: &mut Bench, draw: &mut Draw, _: u64) -> Agreed<()> {
    let drawn = Drawn::new(draw);
    let rows = draw.between(1, 24) as usize;
    let mut table: Vec<u8> = (0..row_at(rows)).map(|_| draw.number() as u8).collect();
    bench.check(Call::Open { last: drawn.last }, &mut table)?;
    for slot in 0..=drawn.last {
        if slot <= drawn.seal_at {
            for _ in 0..draw.between(0, drawn.most) {
                bench.check(drawn.take(draw, slot), &mut table)?;
            }
        }
        if slot == drawn.seal_at {
            bench.check(Call::Seal, &mut table)?;
        }
        between(bench, draw, &drawn, &mut table)?;
        bench.check(Call::Send, &mut table)?;
    }
    for call in [Call::Send, Call::Seal, Call::Total] {
        bench.check(call, &mut table)?;
    }
    bench.check(drawn.take(draw, drawn.last), &mut table)?;
    bench.check(Call::Open { last: drawn.last }, &mut table)?;
    bench.check(drawn.take(draw, 0), &mut table)?;
    bench.check(Call::Send, &mut table)?;
    Ok(())
}

/// What is tried before a sending: takings, good ones and others, questions,
/// sealing again, an opening that is refused.
fn between(bench: &mut Bench, draw: &mut Draw, drawn: &Drawn, table: &mut [u8]) -> Agreed<()> {
    let round = decode(table);
    let slot = round.slot.0;
    if round.sealed {
        let bad = Call::TakeClass {
            due: drawn.last + draw.between(0, 1),
            weight: *draw.pick(&[0, 1, 16_777_217]),
            class: *draw.pick(&[0, 3, 4]),
        };
        bench.check(bad, table)?;
        bench.check(drawn.take(draw, slot), table)?;
        if draw.once_in(3) {
            bench.check(Call::Seal, table)?;
        }
        if draw.once_in(8) {
            bench.check(Call::Open { last: 4_096 }, table)?;
        }
    }
    let asked = draw.between(slot, drawn.last);
    bench.check(Call::Mark { slot: asked }, table)?;
    bench.check(Call::Total, table)?;
    let ticket = draw.between(0, round.next.0);
    bench.check(Call::Substitute { ticket }, table)?;
    Ok(())
}
