//! Drawn sound tables: kept blanks anywhere, tickets with gaps, any slot.

use crate::compare::classes::{class, classes};
use crate::compare::draw::Draw;
use crate::counts::{Class, Slot, Ticket, Weight};
use crate::round::{Round, Row};
use crate::table::{encode, row_at};

/// How large the drawn tables are.
#[derive(Clone, Copy)]
pub struct Size {
    pub rows: u32,
    pub last: u32,
}

/// Small ones for the most part, as their plans show every kind of leap.
pub fn size(draw: &mut Draw) -> Size {
    match draw.below(200) {
        0 => Size {
            rows: 1_024,
            last: 4_095,
        },
        1..=3 => Size {
            rows: 200,
            last: 4_095,
        },
        4..=20 => Size { rows: 60, last: 80 },
        21..=80 => Size { rows: 16, last: 14 },
        _ => Size { rows: 9, last: 7 },
    }
}

/// How the weights of one table are drawn.
#[derive(Clone, Copy)]
pub enum Weights {
    UpTo(u32),
    /// Fibonacci's numbers: they come nearest to a tie by φ.
    Fibonacci,
    /// At the greatest weight or little below.
    Greatest,
}

pub fn weights(draw: &mut Draw) -> Weights {
    let plain = [1, 2, 4, 6, 9, 30, 1_000, Round::WEIGHT.0];
    match draw.below(10) {
        0..=7 => Weights::UpTo(*draw.pick(&plain)),
        8 => Weights::Fibonacci,
        _ => Weights::Greatest,
    }
}

pub fn weight(draw: &mut Draw, weights: Weights) -> u32 {
    match weights {
        Weights::UpTo(most) => draw.between(1, most),
        Weights::Greatest => draw.between(Round::WEIGHT.0 - 2, Round::WEIGHT.0),
        Weights::Fibonacci => {
            let (mut small, mut large) = (1, 2);
            let nearby = if draw.once_in(4) { 0 } else { 26 };
            for _ in 0..draw.between(nearby, 32) {
                (small, large) = (large, small + large);
            }
            small
        }
    }
}

/// A drawn sound round, with at most so many rows.
pub fn round(draw: &mut Draw, size: Size, most_rows: u32) -> Round {
    let last = match draw.below(8) {
        0 => draw.between(0, Round::LAST.0.min(size.last * 4)),
        _ => draw.between(0, size.last),
    };
    let slot = match draw.below(12) {
        0 => last + 1,
        1 => last,
        2..=5 => 0,
        _ => draw.between(0, last),
    };
    let used = match draw.below(6) {
        _ if slot > last => 0,
        0 => most_rows,
        1 => most_rows.saturating_sub(1),
        _ => draw.between(0, most_rows),
    };
    let (next, tickets) = tickets(draw, used);
    let rows = match draw.below(4) {
        0 if slot <= last => ladder(draw, Slot(slot), Slot(last), tickets),
        _ => rows(draw, Slot(slot), Slot(last), tickets),
    };
    Round {
        slot: Slot(slot),
        next,
        rows,
        sealed: draw.once_in(4),
        ..Round::opened(Slot(last))
    }
}

/// Rising tickets, and the next ticket above them.
fn tickets(draw: &mut Draw, used: u32) -> (Ticket, Vec<Ticket>) {
    let gap = *draw.pick(&[1, 1, 2, 5, 300, 16_000]);
    let mut tickets = Vec::new();
    let mut ticket = draw.between(0, gap - 1);
    for _ in 0..used {
        ticket += draw.between(1, gap);
        tickets.push(Ticket(ticket));
    }
    let next = match draw.below(12) {
        0 => Round::TICKET.0,
        1 => Round::TICKET.0 - 1,
        2 => draw.between(ticket + 1, Round::TICKET.0),
        _ => ticket + draw.between(1, gap),
    };
    (Ticket(next.min(Round::TICKET.0)), tickets)
}

fn rows(draw: &mut Draw, slot: Slot, last: Slot, tickets: Vec<Ticket>) -> Vec<Row> {
    let (weights, classes) = (weights(draw), classes(draw));
    let kept_once_in = *draw.pick(&[2, 4, 8, 1_000_000]);
    // Due slots near the current one crowd its segments, late ones spread.
    let late = match draw.below(4) {
        0 => draw.between(slot.0.min(last.0), last.0),
        _ => last.0,
    };
    let row = |ticket| {
        let due = Slot(draw.between(slot.0, late));
        let weight = Weight(weight(draw, weights));
        let class = (!draw.once_in(kept_once_in)).then(|| Class(class(draw, classes)));
        Row::of_kind(class, ticket, due, weight)
    };
    tickets.into_iter().map(row).collect()
}

/// About one row due in each slot, lighter from slot to slot but for a few
/// heavy ones, and light rows left over: rounds with long leaps.
fn ladder(draw: &mut Draw, slot: Slot, last: Slot, tickets: Vec<Ticket>) -> Vec<Row> {
    let steps = u64::from(last.0 - slot.0) + 1;
    let scale = *draw.pick(&[3, 10, 40, 100_000]);
    let kept_once_in = *draw.pick(&[6, 1_000_000]);
    let classes = classes(draw);
    let first = draw.below(tickets.len().max(1) as u64);
    let mut place = first;
    let mut row = |ticket| {
        place = (place + 1) % tickets.len() as u64;
        let over = place >= steps;
        let step = if over { draw.below(steps) } else { place };
        let falls = if over {
            0
        } else {
            (steps - step) * scale / steps
        };
        let heavy = if draw.once_in(5) {
            draw.between(3, 6)
        } else {
            1
        };
        let due = Slot(slot.0 + step as u32);
        let weight = Weight((falls as u32 + draw.between(1, 3)) * heavy);
        let class = (!draw.once_in(kept_once_in)).then(|| Class(class(draw, classes)));
        Row::of_kind(class, ticket, due, weight)
    };
    tickets.iter().map(|ticket| row(*ticket)).collect()
}

/// The table of a round, with so many rows.
pub fn table(round: &Round, rows: u32) -> Vec<u8> {
    let mut table = vec![0; row_at(rows as usize)];
    encode(round, &mut table);
    table
}

/// A drawn sound table and the round in it.
pub fn drawn(draw: &mut Draw, size: Size) -> (Vec<u8>, Round) {
    let rows = draw.between(1, size.rows);
    let round = round(draw, size, rows);
    (table(&round, rows), round)
}
