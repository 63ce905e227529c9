//! The kinds of requests that trial is run on.

use crate::command::{Command, Form};
use crate::compare::damage::damaged;
use crate::compare::draw::Draw;
use crate::compare::extremes::NUMBERS;
use crate::compare::large;
use crate::compare::lengths;
use crate::compare::tables::{drawn, size};
use crate::compare::ties;
use crate::counts::{Class, Slot, Weight};
use crate::kind::Kind;
use crate::listing::Entry;
use crate::programs::noise::{damage, long_line, noise, odd_line};
use crate::programs::rounds::{payload, round, Drawn};
use crate::programs::trial::{Request, MOST_ROOM, MOST_SIZE};
use crate::rules::Rules;
use crate::table::ROW;

/// Draws one request; the number says which of its kind.
pub type Drawing = fn(&mut Draw, u64) -> Request;

pub const KINDS: &[Kind<Drawing>] = &[
    Kind::drawn("sound", 3_000, |draw, _| {
        let size = size(draw);
        let table = drawn(draw, size).0;
        listing(draw, table)
    }),
    Kind::drawn("reachable", 150, reachable),
    Kind::drawn("large", 60, |draw, number| {
        let table = large::drawn(draw, number);
        listing(draw, table)
    }),
    Kind::drawn("damaged", 1_500, |draw, number| {
        let table = damaged(draw, number).table;
        listing(draw, table)
    }),
    Kind::drawn("lengths", lengths::CASES, |draw, number| {
        let length = lengths::length(number % lengths::CASES);
        listing(draw, lengths::opened(length))
    }),
    Kind::drawn("written", 4_000, writing),
    Kind::drawn("read", 3_000, |draw, _| Request::Read {
        line: good_line(draw),
    }),
    Kind::drawn("read damaged", 3_000, broken),
    Kind::drawn("classes", 1_500, |draw, _| {
        let table = ties::drawn(draw);
        listing(draw, table)
    }),
    Kind::drawn("read long", 60, |draw, _| {
        let length = draw.between(60, MOST_SIZE as u32) as usize;
        Request::Read {
            line: long_line(draw, length),
        }
    }),
];

/// A listing with a room at or near what it needs.
fn listing(draw: &mut Draw, table: Vec<u8>) -> Request {
    let mut entries = [Entry::ZERO; MOST_ROOM];
    let count = Rules::PAPERS.list(&table, &mut entries).unwrap_or(0);
    let room = near(draw, count, table.len() / ROW);
    Request::List { table, room }
}

/// The number itself or one next to it, another one, 0 or the most.
fn near(draw: &mut Draw, number: usize, other: usize) -> usize {
    let room = match draw.below(10) {
        0..=2 => number,
        3 | 4 => number.saturating_sub(1),
        5 | 6 => number + 1,
        7 => 0,
        8 => other + 1,
        _ => number + draw.below(40) as usize,
    };
    room.min(MOST_ROOM)
}

/// A table that some lines lead to.
fn reachable(draw: &mut Draw, _: u64) -> Request {
    let (drawn, lines) = (Drawn::new(draw), draw.between(5, 120));
    let file = round(draw, drawn, lines);
    let mut table = Rules::PAPERS.fresh();
    for line in file.split_inclusive(|byte| *byte == b'\n') {
        Rules::PAPERS.reply(&mut table, line);
    }
    listing(draw, table)
}

fn writing(draw: &mut Draw, _: u64) -> Request {
    let number = |draw: &mut Draw| match draw.below(4) {
        0 => *draw.pick(NUMBERS),
        1 => draw.number() as u32,
        _ => draw.between(0, 65_535),
    };
    let slot = Slot(number(draw));
    let weight = Weight(number(draw));
    let class = Class(match draw.below(3) {
        0 => number(draw),
        _ => draw.between(0, 260),
    });
    let command = match draw.below(9) {
        0 => Command::Open { last: slot },
        1 => Command::Send,
        2 => Command::Seal,
        3..=5 => Command::Take { due: slot, weight },
        _ => Command::TakeClass {
            due: slot,
            weight,
            class,
        },
    };
    let form = Rules::PAPERS.writing.form(command.numbers().0.as_bytes());
    let payload = digits(draw, form.is_some_and(|form| form.has_payload));
    let front = form.map_or(0, Form::front);
    let room = near(draw, front + payload.len() + 1, 62);
    Request::Write {
        command,
        payload,
        room,
    }
}

/// Payload digits; at times odd, too long, in lower case or none at all. Most
/// commands without a payload get none.
fn digits(draw: &mut Draw, may_have: bool) -> Vec<u8> {
    if !may_have && !draw.once_in(4) {
        return Vec::new();
    }
    let most = *draw.pick(&[0, 3, 24, 24, 30]);
    let mut digits = payload(draw, most).into_bytes();
    match draw.below(8) {
        0 => digits.push(b'7'),
        1 => damage(draw, &mut digits),
        2 => digits.make_ascii_lowercase(),
        _ => {}
    }
    digits
}

/// A line that the reader takes.
fn good_line(draw: &mut Draw) -> Vec<u8> {
    let slot = draw.between(0, 65_535);
    let weight = draw.number() as u32;
    let class = match draw.below(3) {
        0 => draw.between(0, 255),
        _ => draw.between(0, 5),
    };
    let text = match draw.below(11) {
        0 => format!("00{slot:04X}\n"),
        1 => "02\n".to_string(),
        2 => "03\n".to_string(),
        3..=6 => format!("04{slot:04X}{weight:08X}{class:02X}{}\n", payload(draw, 24)),
        _ => format!("01{slot:04X}{weight:08X}{}\n", payload(draw, 24)),
    };
    text.into_bytes()
}

fn broken(draw: &mut Draw, _: u64) -> Request {
    let line = match draw.below(6) {
        0 => noise(draw),
        1 | 2 => odd_line(draw),
        3 => {
            let mut line = good_line(draw);
            line.truncate(draw.below(line.len() as u64) as usize);
            line
        }
        _ => {
            let mut line = good_line(draw);
            damage(draw, &mut line);
            line
        }
    };
    Request::Read { line }
}
