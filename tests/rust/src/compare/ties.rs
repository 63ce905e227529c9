//! Tables of few weights and few due slots with mixed classes, and what the
//! class decides in them.

use crate::call::Call;
use crate::compare::bench::{Agreed, Bench};
use crate::compare::classes::{class, classes, taking, Classes};
use crate::compare::draw::Draw;
use crate::compare::tables::table;
use crate::counts::{Class, Slot, Ticket, Weight};
use crate::faults;
use crate::listing::Entry;
use crate::round::{Round, Row};
use crate::rules::Rules;
use crate::table::decode;

/// Something that equals are ordered for: its name, and the fault that does so
/// without their classes.
pub type Part = (&'static str, &'static str);

pub const PARTS: &[Part] = &[
    ("plan", "PlanWithoutClass"),
    ("pick", "PickWithoutClass"),
    ("lightest of the first segment", "LightestWithoutClass"),
    ("substitute outside the plan", "SubstituteWithoutClass"),
    ("shift", "ShiftWithoutClass"),
    ("sealed first", "SealedWithoutClass"),
    ("listing", "ListedWithoutClass"),
];

/// The parts in which the class decides at this table: with the fault a reply
/// is another, or what a sending leaves.
pub fn decided(table: &[u8]) -> impl Iterator<Item = &'static str> + '_ {
    let papers = answers(Rules::PAPERS, table);
    let differs = move |part: &&Part| answers(&faults::with(part.1), table) != papers;
    PARTS.iter().filter(differs).map(|part| part.0)
}

/// The plan as listed, the substitutes, and what a sending leaves.
type Answers = (Vec<Entry>, Vec<u64>, Vec<u8>);

fn answers(second: &Rules, table: &[u8]) -> Answers {
    let rows = decode(table).rows;
    let mut entries = vec![Entry::ZERO; rows.len()];
    let count = second.list(table, &mut entries).unwrap_or(0);
    entries.truncate(count);
    let mut after = table.to_vec();
    let mut replies = vec![second.answer(Call::Send, &mut after)];
    for row in rows {
        let ticket = row.ticket.0;
        replies.push(second.answer(Call::Substitute { ticket }, &mut table.to_vec()));
    }
    (entries, replies, after)
}

/// What one table is drawn by.
struct Equals {
    slot: u32,
    last: u32,
    /// The slots in which rows are due, and what they weigh.
    dues: Vec<u32>,
    weights: Vec<u32>,
    classes: Classes,
}

impl Equals {
    fn drawn(draw: &mut Draw) -> Equals {
        let slot = draw.between(0, 3);
        let last = slot + draw.between(0, 7);
        let dues = (0..draw.between(1, 4)).map(|_| draw.between(slot, last));
        let dues = dues.collect();
        let scale = *draw.pick(&[1, 1, 2, 1_000_000]);
        let weights = (0..draw.between(1, 3)).map(|_| draw.between(1, 8) * scale);
        Equals {
            slot,
            last,
            dues,
            weights: weights.collect(),
            classes: classes(draw),
        }
    }

    fn row(&self, draw: &mut Draw, ticket: u32) -> Row {
        let (due, weight) = (*draw.pick(&self.dues), *draw.pick(&self.weights));
        self.row_of(draw, ticket, due, weight)
    }

    fn row_of(&self, draw: &mut Draw, ticket: u32, due: u32, weight: u32) -> Row {
        let class = (!draw.once_in(8)).then(|| Class(class(draw, self.classes)));
        Row::of_kind(class, Ticket(ticket), Slot(due), Weight(weight))
    }

    fn table(&mut self, draw: &mut Draw) -> Vec<u8> {
        let rows = draw.between(2, 14);
        let round = self.round(draw, rows);
        table(&round, round.rows.len() as u32 + draw.between(0, 3))
    }

    /// A row due now, a heavy one due in the next slot, then two or three equals
    /// every other slot and one more in the end: leaps that shift one of equals.
    fn steps(&mut self, draw: &mut Draw) -> Vec<Row> {
        let groups = draw.between(1, 3);
        let base = draw.between(3, 9);
        self.last = self.slot + 1 + 2 * groups;
        let heavy = 2 * base + draw.between(0, 2 * base);
        let mut rows = vec![(self.slot, base + 1), (self.slot + 1, heavy)];
        for group in 1..=groups {
            let weight = base - group.min(base - 1) * draw.between(0, 1);
            let equals = if group == groups { 3 } else { 2 };
            rows.extend((0..equals).map(|_| (self.slot + 1 + 2 * group, weight)));
        }
        let mut drawn = Vec::new();
        while !rows.is_empty() {
            let at = draw.below(rows.len() as u64) as usize;
            let (due, weight) = rows.remove(at);
            drawn.push(self.row_of(draw, drawn.len() as u32 + 1, due, weight));
        }
        drawn
    }

    fn take(&self, draw: &mut Draw, slot: u32) -> Call {
        let due = (*draw.pick(&self.dues)).max(slot).min(self.last);
        let weight = *draw.pick(&self.weights);
        taking(draw, due, weight, self.classes)
    }

    /// With so many rows, or in steps.
    fn round(&mut self, draw: &mut Draw, rows: u32) -> Round {
        let rows: Vec<Row> = match draw.below(3) {
            0 => self.steps(draw),
            _ => (1..=rows).map(|ticket| self.row(draw, ticket)).collect(),
        };
        Round {
            slot: Slot(self.slot),
            next: Ticket(rows.len() as u32 + 1),
            rows,
            sealed: draw.once_in(4),
            ..Round::opened(Slot(self.last))
        }
    }
}

/// A table with many equals.
pub fn drawn(draw: &mut Draw) -> Vec<u8> {
    let mut equals = Equals::drawn(draw);
    equals.table(draw)
}

/// Asks everything, then goes on with takings and sendings, sealed at times.
pub fn run(bench: &mut Bench, draw: &mut Draw, _: u64) -> Agreed<()> {
    let mut equals = Equals::drawn(draw);
    let mut table = equals.table(draw);
    for slot in equals.slot..=equals.last {
        decided(&table).for_each(|part| bench.tally.decide(part));
        questions(bench, draw, &table)?;
        if draw.once_in(12) {
            bench.check(Call::Seal, &mut table)?;
        }
        bench.check(Call::Send, &mut table)?;
        for _ in 0..draw.between(0, 2) {
            bench.check(equals.take(draw, slot + 1), &mut table)?;
        }
    }
    Ok(())
}

fn questions(bench: &mut Bench, draw: &mut Draw, table: &[u8]) -> Agreed<()> {
    let round = decode(table);
    for row in &round.rows {
        let ticket = row.ticket.0;
        bench.check_aside(Call::Substitute { ticket }, table)?;
    }
    let slot = draw.between(round.slot.0, round.last.0);
    bench.check_aside(Call::Mark { slot }, table)?;
    bench.check_aside(Call::Total, table)?;
    Ok(())
}
