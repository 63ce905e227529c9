//! The largest table there is, 1,024 rows and 4,096 slots, filled by takings
//! and kept full while slot after slot is sent; then sealed and sent on.

use crate::call::Call;
use crate::compare::bench::{Agreed, Bench};
use crate::compare::classes::{class, classes, taking, taking_of, Classes};
use crate::compare::draw::Draw;
use crate::compare::tables::{weight, weights, Weights};
use crate::round::Round;
use crate::table::{decode, row_at};

/// How many slots are sent of each table, and how many more once it is sealed.
const SENDINGS: u32 = 60;
const SEALED: u32 = 20;

/// How the frames of one table are drawn.
struct Frames {
    /// How many slots ahead they are due at most.
    reach: u32,
    weights: Weights,
    classes: Classes,
    /// One due in each slot, lighter from slot to slot: long leaps.
    falling: bool,
}

impl Frames {
    fn drawn(draw: &mut Draw) -> Frames {
        Frames {
            reach: *draw.pick(&[16, 512, 1_023, 1_024, 2_048, 4_095]),
            weights: weights(draw),
            classes: classes(draw),
            falling: draw.once_in(4),
        }
    }

    /// The frame that is taken next, where so many were taken before.
    fn next(&self, draw: &mut Draw, slot: u32, before: u32) -> Call {
        if self.falling && before < Round::ROWS as u32 {
            let weight = 2 * (Round::ROWS as u32 - before) + draw.between(0, 3);
            let class = class(draw, self.classes);
            return taking_of(draw, before, weight, class);
        }
        let due = (slot + draw.between(0, self.reach)).min(Round::LAST.0);
        let weight = weight(draw, self.weights);
        let class = class(draw, self.classes);
        taking_of(draw, due, weight, class)
    }
}

pub fn run(bench: &mut Bench, draw: &mut Draw, _: u64) -> Agreed<()> {
    let frames = Frames::drawn(draw);
    let mut table = vec![0; row_at(Round::ROWS)];
    bench.check(
        Call::Open {
            last: Round::LAST.0,
        },
        &mut table,
    )?;
    let mut taken = 0;
    for slot in 0..SENDINGS {
        while decode(&table).rows.len() < Round::ROWS {
            let take = frames.next(draw, slot, taken);
            bench.check(take, &mut table)?;
            taken += 1;
        }
        questions(bench, draw, slot, taken, &table)?;
        bench.check(Call::Send, &mut table)?;
    }
    bench.check(Call::Seal, &mut table)?;
    for slot in SENDINGS..SENDINGS + SEALED {
        questions(bench, draw, slot, taken, &table)?;
        bench.check(Call::Send, &mut table)?;
    }
    Ok(())
}

/// One more taking, which finds the table full or the round sealed, and one each of the calls that look.
fn questions(
    bench: &mut Bench,
    draw: &mut Draw,
    slot: u32,
    taken: u32,
    table: &[u8],
) -> Agreed<()> {
    let due = draw.between(slot, Round::LAST.0);
    bench.check_aside(taking(draw, due, 1, Classes::Any), table)?;
    let near = draw.between(slot, slot + 1_100);
    bench.check_aside(Call::Mark { slot: near }, table)?;
    bench.check_aside(Call::Total, table)?;
    let ticket = draw.between(1, taken);
    bench.check_aside(Call::Substitute { ticket }, table)?;
    Ok(())
}
