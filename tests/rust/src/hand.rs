//! Rounds by hand, written as document 01 writes them: the last slot, then
//! "due:weight" for each taking ("due:weight/class" with a class), "S" for each sending, "seal" for a sealing
//! and "O1" for an opening anew, of slots 0 and 1.

use crate::call::Call;
use crate::counts::{Class, Slot, Ticket, Weight};
use crate::round::{Round, Row};
use crate::table::{encode, row_at};

/// Rounds P1 to P10, with their sendings, and the further rounds by hand.
pub const ROUNDS: &[(&str, &str)] = &[
    ("P1", "1; 0:4 1:10 S S"),
    ("P2", "1; 0:4 1:11 S S"),
    ("P3", "4; 0:1 4:9 S S S S S"),
    ("P4", "2; 0:4 1:10 2:5 2:3 S S S"),
    ("P5", "1; 1:5 1:5 S S"),
    ("P6", "0; 0:5 0:5 S"),
    ("P7", "0; 0:5 0:6 S"),
    ("P8", "1; 0:2178309 1:5702887 S S"),
    ("P9", "1; 0:3524578 1:9227465 S S"),
    ("P10", "9; S S S S S S S S S S S"),
    ("all substitutes", "4; 4:2 1:1 4:20 3:9 0:9 2:2 1:2 3:4 S S S S S"),
    ("send, take, send", "3; 3:20 0:5 2:5 3:9 S 2:1 S S S"),
    ("shift and raise", "4; 0:3 4:3 2:2 3:5 1:9 4:5 S S S S S"),
    ("all equal", "3; 3:9 3:9 3:9 2:9 S S S S"),
    ("two shifts", "4; 3:2 2:2 0:4 1:20 3:1 0:5 0:1 S S S S S"),
    ("leap after leap", "3; 2:3 1:3 3:20 2:5 2:2 S 2:3 3:20 S S S"),
    ("heaviest of later", "3; 1:20 2:5 3:3 0:9 3:20 2:1 S S S S"),
    ("heavy h", "4; 0:3 4:20 1:4 1:4 4:2 4:3 4:20 2:20 S S S S S"),
    ("blank substitute", "3; 1:11 3:20 1:2 S S S S"),
    ("idle slot", "3; 3:9 3:5 S S S S"),
    ("fresh marks", "3; 0:8 1:40 2:5 3:4 3:3 S S S S"),
    ("own segment", "4; 3:1 2:3 3:3 S S S S S"),
    ("kept blank outweighed", "1; 0:4 1:11 S 1:3 1:6 S"),
    ("equal substitutes", "3; 0:9 3:4 3:4 3:9 2:9 1:9 S S S S"),
    ("sealed", "1; 0:4 1:11 seal 1:20 0:0 S S S seal"),
    ("sealed, silence first", "2; 1:5 2:7 seal seal S S S"),
    ("sealed, a kept blank", "3; 3:20 0:5 2:5 3:9 S seal S 3:30 S S"),
    ("sealed, one left out", "1; 0:4 1:5 1:6 seal S S"),
    ("sealed, all equal", "3; 3:9 3:9 3:9 2:9 seal S S S S"),
    ("sealed, the heavier first", "3; 2:1 2:7 2:3 3:8 seal S S seal S S"),
    ("sealed, silence between", "4; 0:3 3:2 4:9 seal S S S 4:1 S S"),
    ("sealed and empty", "2; seal 2:1 S S S"),
    ("class after weight and due slot", "1; 1:5 0:5/3 1:6/2 S S"),
    ("class decides the plan", "0; 0:5/2 0:5/1 0:5/3 S"),
    ("without a class it is 0", "1; 1:5/1 1:5 1:5/0 S S"),
    ("class of the lightest", "3; 3:9/0 3:9/3 3:9/1 2:9/3 S S S S"),
    ("class of a substitute", "3; 0:9 3:4/2 3:4/1 3:9 2:9 1:9 S S S S"),
    ("class of a shift", "3; 0:6 1:10 3:5/2 3:5/1 3:5/3 S S S S"),
    ("class of a kept blank", "1; 0:4 1:11 S 1:4/2 S"),
    ("class 3 as a kept blank's", "1; 0:4 1:11/1 S 1:4/3 S"),
    ("sealed, by class", "2; 2:5/3 2:5 2:5/2 2:5/3 seal S S S"),
    ("class above 3", "1; 1:5/4 1:5/255 1:0/4 2:5/4 0:4 1:11/3 S S"),
    ("sealed and opened anew", "1; seal 1:9 O1 0:4 1:11 S S"),
];

/// A row by hand: ticket, due slot, weight, and a frame's class; a kept blank has
/// none of its own.
pub type HandRow = (u32, u32, u32, Option<u32>);

/// Sound tables that no list of calls reaches, kept blanks anywhere: the last
/// slot, and the rows.
pub const TABLES: &[(u32, &[HandRow])] = &[
    (2, SHIFTED),
    (1, LEAPING),
    (1, BLANK_GOES),
    (4, THREE_SHIFTS),
    (1, FRAME_FIRST),
    (1, BLANK_FIRST),
    (3, BLANK_LIGHTEST),
    (1, BLANK_LAST),
    (3, CLASSES_MIXED),
];

pub const SHIFTED: &[HandRow] = &[
    (1, 0, 4, Some(0)),
    (2, 1, 20, Some(0)),
    (3, 2, 9, None),
    (4, 2, 2, Some(0)),
];

pub const LEAPING: &[HandRow] = &[(1, 0, 4, Some(0)), (2, 1, 11, None)];

/// A kept blank goes out before its due slot, a frame waiting.
pub const BLANK_GOES: &[HandRow] = &[(1, 1, 5, None), (2, 1, 5, Some(3))];

pub const THREE_SHIFTS: &[HandRow] = &[
    (1, 0, 5, Some(0)),
    (2, 1, 20, Some(0)),
    (3, 2, 4, Some(0)),
    (4, 3, 3, None),
    (5, 4, 2, Some(0)),
    (6, 4, 1, Some(0)),
];

/// Frames of class 0 and a kept blank of equal weight: the kept blank last.
pub const FRAME_FIRST: &[HandRow] = &[(1, 1, 5, Some(0)), (2, 1, 5, None), (3, 1, 5, Some(0))];

/// Frames of a kept blank's class: the smaller ticket first.
pub const BLANK_FIRST: &[HandRow] = &[(1, 1, 5, None), (2, 1, 5, Some(3)), (3, 1, 5, None)];

/// A frame of a smaller class goes before a kept blank.
pub const BLANK_LAST: &[HandRow] = &[(1, 1, 5, None), (2, 1, 5, Some(2)), (3, 1, 5, Some(1))];

/// Equals of every class, some left out.
pub const CLASSES_MIXED: &[HandRow] = &[
    (1, 1, 5, Some(3)),
    (2, 1, 5, Some(2)),
    (3, 3, 5, None),
    (4, 1, 5, Some(1)),
    (5, 3, 5, Some(3)),
    (6, 3, 5, Some(0)),
    (7, 3, 5, Some(1)),
];

/// A kept blank is the lightest of the first segment.
pub const BLANK_LIGHTEST: &[HandRow] = &[
    (1, 1, 9, Some(0)),
    (2, 1, 3, None),
    (3, 3, 8, Some(0)),
    (4, 3, 7, Some(0)),
];

/// The calls of a round by hand, its opening first.
pub fn calls(text: &str) -> Vec<Call> {
    let (last, rest) = text.split_once(';').expect("the last slot, then ';'");
    let mut calls = vec![Call::Open { last: number(last) }];
    for word in rest.split_whitespace() {
        calls.push(call(word));
    }
    calls
}

fn call(word: &str) -> Call {
    match (word, word.split_once(':'), word.strip_prefix('O')) {
        (_, Some((due, frame)), _) => taking(number(due), frame),
        (_, _, Some(last)) => Call::Open { last: number(last) },
        ("seal", ..) => Call::Seal,
        ("S", ..) => Call::Send,
        _ => panic!("no call: {word}"),
    }
}

fn taking(due: u32, frame: &str) -> Call {
    match frame.split_once('/') {
        None => Call::Take {
            due,
            weight: number(frame),
        },
        Some((weight, class)) => Call::TakeClass {
            due,
            weight: number(weight),
            class: number(class),
        },
    }
}

fn number(text: &str) -> u32 {
    text.trim().parse().expect("a number")
}

/// A table of so many rows.
pub fn table(rows: usize, last: u32, used: &[HandRow]) -> Vec<u8> {
    let row = |&(ticket, due, weight, class): &HandRow| {
        Row::of_kind(class.map(Class), Ticket(ticket), Slot(due), Weight(weight))
    };
    let next = used.last().map_or(1, |row| row.0 + 1);
    let round = Round {
        next: Ticket(next),
        rows: used.iter().map(row).collect(),
        ..Round::opened(Slot(last))
    };
    let mut table = vec![0; row_at(rows)];
    encode(&round, &mut table);
    table
}

/// The rows of a round as "due:weight (ticket)", kept blanks with "kept", frames
/// of another class than 0 as "due:weight/class (ticket)".
pub fn shown(round: &Round) -> String {
    let show = |row: &Row| {
        let (kept, class) = match row {
            Row { kept: true, .. } => ("kept ", String::new()),
            Row {
                class: Class(0), ..
            } => ("", String::new()),
            Row { class, .. } => ("", format!("/{}", class.0)),
        };
        format!("{kept}{}:{}{class} (t{})", row.due.0, row.weight.0, row.ticket.0)
    };
    round.rows.iter().map(show).collect::<Vec<_>>().join(" ")
}
