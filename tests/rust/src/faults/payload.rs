//! Faults of the payload's part.

use super::Entry;
use crate::command::Command;
use crate::payload::place;

/// Digits of a take line before its payload.
const FRONT: usize = 2 + 4 + 8;

pub const FAULTS: &[Entry] = &[
    ("PayloadOffByOne", "the payload starts one digit late", |rules| {
        rules.calls.payload_place = |rules, line| match place(rules, line) {
            (0, 0) => (0, 0),
            (start, end) => (start + 1, end),
        };
    }),
    ("PayloadOfRefused", "a refused line has a payload", |rules| {
        rules.calls.payload_place = |rules, line| match rules.read(line) {
            Err(_) if line.len() > FRONT + 1 => (FRONT, line.len() - 1),
            _ => place(rules, line),
        };
    }),
    ("EmptyPayloadAtItsPlace", "an empty payload is not at the line's start", |rules| {
        rules.calls.payload_place = |rules, line| match rules.read(line) {
            Ok(Command::Take { .. }) => (FRONT, line.len() - 1),
            _ => place(rules, line),
        };
    }),
    ("PayloadWithEnd", "the payload has the 0A too", |rules| {
        rules.calls.payload_place = |rules, line| match place(rules, line) {
            (0, 0) => (0, 0),
            (start, end) => (start, end + 1),
        };
    }),
];
