//! Sound tables damaged in one or more bytes, aimed at each clause of
//! soundness, and calls that only the damage speaks against.

use crate::call::Call;
use crate::compare::bench::{Agreed, Bench};
use crate::compare::classes::{classes, taking};
use crate::compare::draw::Draw;
use crate::compare::extremes::NUMBERS;
use crate::compare::tables::{drawn, size};
use crate::field::Field;
use crate::round::Round;
use crate::table::{
    row_at, row_mut, zeros_at, CLASS, HEAD, HEAD_FIELDS, KIND, ROW, ROW_FIELDS, TICKET,
};

/// A sound table about to be damaged.
pub struct Target {
    pub table: Vec<u8>,
    pub round: Round,
}

/// A way to damage a table; the rows it needs in use, and its name.
type Damage = (&'static str, usize, fn(&mut Target, &mut Draw));

/// Beside these, every field of the head and of a row gets another number.
const DAMAGES: &[Damage] = &[
    ("head zero byte", 0, |target, draw| {
        let at = draw.between(zeros_at(HEAD_FIELDS) as u32, HEAD as u32 - 1);
        target.table[at as usize] = draw.between(1, 255) as u8;
    }),
    ("row zero byte", 1, |target, draw| {
        let at = draw.between(zeros_at(ROW_FIELDS) as u32, ROW as u32 - 1);
        let place = target.place(draw);
        row_mut(&mut target.table, place)[at as usize] = draw.between(1, 255) as u8;
    }),
    ("class", 1, |target, draw| {
        let place = target.place(draw);
        let class = *draw.pick(&[0, 1, 2, 3, 4, 5, 7, 128, 255]);
        CLASS.put(row_mut(&mut target.table, place), class);
    }),
    ("kept blank's class", 1, |target, draw| {
        let place = target.place(draw);
        let row = row_mut(&mut target.table, place);
        KIND.put(row, 1);
        CLASS.put(row, draw.between(0, 4));
    }),
    ("first ticket", 1, |target, draw| {
        let second = target.round.rows.get(1).map_or(9, |row| row.ticket.0);
        target.ticket(0, *draw.pick(&[0, second - 1, second, second + 1]));
    }),
    ("equal tickets", 2, |target, draw| {
        let place = target.later_place(draw);
        let ticket = target.round.rows[place - 1].ticket.0;
        target.ticket(place, ticket + draw.between(0, 1));
    }),
    ("falling tickets", 2, |target, draw| {
        let place = target.later_place(draw);
        let pair = [place, place - 1].map(|place| target.round.rows[place].ticket.0);
        target.ticket(place - 1, pair[0]);
        target.ticket(place, pair[1]);
    }),
    ("unused row", 0, |target, draw| {
        let unused = row_at(target.round.rows.len());
        if unused < target.table.len() {
            let at = draw.between(unused as u32, target.table.len() as u32 - 1);
            target.table[at as usize] = draw.between(1, 255) as u8;
        }
    }),
    ("last byte", 0, |target, draw| {
        let at = target.table.len() - 1;
        target.table[at] = draw.between(1, 255) as u8;
    }),
    ("any byte", 0, |target, draw| {
        let at = draw.below(target.table.len() as u64) as usize;
        target.table[at] = draw.number() as u8;
    }),
];

/// How many ways there are.
const WAYS: usize = DAMAGES.len() + HEAD_FIELDS.len() + ROW_FIELDS.len();

impl Target {
    /// The place of a used row: the first, the last, or any.
    fn place(&self, draw: &mut Draw) -> usize {
        let used = self.round.rows.len() as u64;
        match draw.below(4) {
            0 => 0,
            1 => used as usize - 1,
            _ => draw.below(used) as usize,
        }
    }

    /// The place of a used row that is not the first.
    fn later_place(&self, draw: &mut Draw) -> usize {
        draw.between(1, self.round.rows.len() as u32 - 1) as usize
    }

    fn ticket(&mut self, place: usize, ticket: u32) {
        TICKET.put(row_mut(&mut self.table, place), ticket);
    }

    /// A number at or next to one that stands in the table, or a limit.
    fn number(&self, draw: &mut Draw, own: u32) -> u32 {
        let Round {
            slot,
            last,
            next,
            rows,
            ..
        } = &self.round;
        let all = (self.table.len() - HEAD) / ROW;
        let near = [own, slot.0, last.0, next.0, rows.len() as u32, all as u32];
        match draw.below(2) {
            0 => *draw.pick(NUMBERS),
            _ => draw
                .pick(&near)
                .wrapping_add(draw.between(0, 3))
                .wrapping_sub(2),
        }
    }

    /// Gives a field of these bytes another number.
    fn change(&mut self, draw: &mut Draw, at: usize, field: Field) {
        let own = field.get(&self.table[at..]);
        let number = self.number(draw, own);
        field.put(&mut self.table[at..], number);
    }

    /// Damages the table in the way of this number.
    fn damage(&mut self, draw: &mut Draw, way: usize) {
        let used = self.round.rows.len();
        if let Some((_, rows, damage)) = DAMAGES.get(way) {
            if used >= *rows {
                damage(self, draw);
            }
        } else if let Some(field) = HEAD_FIELDS.get(way - DAMAGES.len()) {
            self.change(draw, 0, *field);
        } else if used > 0 {
            let place = self.place(draw);
            let field = ROW_FIELDS[way - DAMAGES.len() - HEAD_FIELDS.len()];
            self.change(draw, row_at(place), field);
        }
    }
}

/// A drawn table, damaged mostly once.
pub fn damaged(draw: &mut Draw, case: u64) -> Target {
    let size = size(draw);
    let (table, round) = drawn(draw, size);
    let mut target = Target { table, round };
    target.damage(draw, case as usize % WAYS);
    if draw.once_in(4) {
        for _ in 0..draw.between(1, 3) {
            let way = draw.below(WAYS as u64) as usize;
            target.damage(draw, way);
        }
    }
    target
}

/// Every call is asked of a damaged table.
pub fn run(bench: &mut Bench, draw: &mut Draw, case: u64) -> Agreed<()> {
    let target = damaged(draw, case);
    let due = draw.between(target.round.slot.0.min(target.round.last.0), target.round.last.0);
    let weight = draw.between(1, Round::WEIGHT.0);
    let ticket = target.round.rows.first().map_or(1, |row| row.ticket.0);
    let classes = classes(draw);
    bench.check_aside(taking(draw, due, weight, classes), &target.table)?;
    bench.check_aside(
        Call::TakeClass {
            due: 65_535,
            weight: 0,
            class: 4,
        },
        &target.table,
    )?;
    bench.check_aside(Call::Mark { slot: due }, &target.table)?;
    bench.check_aside(Call::Total, &target.table)?;
    bench.check_aside(Call::Substitute { ticket }, &target.table)?;
    bench.check_aside(Call::Send, &target.table)?;
    bench.check_aside(Call::Seal, &target.table)?;
    bench.check_aside(Call::Open { last: due }, &target.table)?;
    Ok(())
}
