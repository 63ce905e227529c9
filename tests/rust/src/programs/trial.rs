//! What the program trial reads and prints (tests/trial.md), over the second
//! implementation.

use crate::command::{Command, FORMS};
use crate::counts::{Slot, Ticket, Weight};
use crate::listing::Entry;
use crate::refusal::Refusal;
use crate::rules::Rules;

/// The most bytes after a request's head.
pub const MOST_SIZE: usize = 24_640;
/// The most entries or buffer bytes lent.
pub const MOST_ROOM: usize = 1_024;
/// Bytes of a request's head.
pub const HEAD: usize = 28;

#[derive(Clone, PartialEq, Eq, Debug)]
pub enum Request {
    List {
        table: Vec<u8>,
        room: usize,
    },
    Write {
        command: Command,
        payload: Vec<u8>,
        room: usize,
    },
    Read {
        line: Vec<u8>,
    },
}

/// What each entry, and each byte of a buffer, is before the call.
const ENTRY: Entry = Entry {
    ticket: Ticket(0xEEEE_EEEE),
    due: Slot(0xDDDD_DDDD),
    weight: Weight(0xCCCC_CCCC),
};
const BYTE: u8 = 0x2A;

impl Request {
    /// Its bytes.
    pub fn bytes(&self) -> Vec<u8> {
        let (kind, body, room, [command, slot, weight, class]) = match self {
            Request::List { table, room } => (0, table, *room, [0; 4]),
            Request::Write {
                command,
                payload,
                room,
            } => (1, payload, *room, numbers_of(*command)),
            Request::Read { line } => (2, line, 0, [0; 4]),
        };
        let mut bytes = Vec::new();
        put(&mut bytes, &[kind, body.len() as u32, room as u32]);
        put(&mut bytes, &[command, slot, weight, class]);
        bytes.extend_from_slice(body);
        bytes
    }

    /// The first request of some bytes, and the bytes after it.
    pub fn first(bytes: &[u8]) -> Option<(Request, &[u8])> {
        let (head, rest) = bytes.split_at_checked(HEAD)?;
        let number = |at: usize| {
            let four = head[at..at + 4].try_into().expect("four bytes");
            u32::from_le_bytes(four)
        };
        let (size, room) = (number(4) as usize, number(8) as usize);
        if size > MOST_SIZE || room > MOST_ROOM {
            return None;
        }
        let (body, rest) = rest.split_at_checked(size)?;
        let body = body.to_vec();
        let request = match number(0) {
            0 => Request::List { table: body, room },
            1 => Request::Write {
                command: command_of(number(12), [number(16), number(20), number(24)])?,
                payload: body,
                room,
            },
            2 => Request::Read { line: body },
            _ => return None,
        };
        Some((request, rest))
    }

    /// The outcome's bytes.
    pub fn outcome(&self, second: &Rules) -> Vec<u8> {
        match self {
            Request::List { table, room } => listed(second, table, *room),
            Request::Write {
                command,
                payload,
                room,
            } => wrote(second, *command, payload, *room),
            Request::Read { line } => read(second, line),
        }
    }
}

fn put(bytes: &mut Vec<u8>, numbers: &[u32]) {
    bytes.extend(numbers.iter().flat_map(|number| number.to_le_bytes()));
}

/// Refusal and number: one of them is 0.
fn reply(answer: Result<usize, Refusal>) -> [u32; 2] {
    match answer {
        Ok(number) => [0, number as u32],
        Err(refusal) => [u32::from(refusal.number()), 0],
    }
}

/// The place of its form, which is the line's number, and its numbers.
fn numbers_of(command: Command) -> [u32; 4] {
    let (line, numbers) = command.numbers();
    let place = FORMS.iter().position(|form| form.line == line);
    let number = |place: usize| numbers.get(place).copied().unwrap_or(0);
    let place = place.expect("its form") as u32;
    [place, number(0), number(1), number(2)]
}

/// The numbers are a slot, a weight and a class.
fn command_of(number: u32, numbers: [u32; 3]) -> Option<Command> {
    let form = FORMS.get(number as usize)?;
    Some((form.command)(&numbers))
}

fn listed(second: &Rules, table: &[u8], room: usize) -> Vec<u8> {
    let mut entries = vec![ENTRY; room];
    let answer = second.list(table, &mut entries);
    let mut bytes = Vec::new();
    put(&mut bytes, &reply(answer));
    for entry in entries {
        put(&mut bytes, &[entry.ticket.0, entry.due.0, entry.weight.0]);
    }
    bytes
}

fn wrote(second: &Rules, command: Command, payload: &[u8], room: usize) -> Vec<u8> {
    let mut buffer = vec![BYTE; room];
    let answer = second.write(command, payload, &mut buffer);
    let mut bytes = Vec::new();
    put(&mut bytes, &reply(answer));
    bytes.extend(buffer);
    bytes
}

fn read(second: &Rules, line: &[u8]) -> Vec<u8> {
    let (refusal, [command, slot, weight, class]) = match second.read(line) {
        Ok(command) => (0, numbers_of(command)),
        Err(refusal) => (u32::from(refusal.number()), [0; 4]),
    };
    let (start, end) = second.payload_place(line);
    let payload = second.payload(line);
    let places = [start as u32, end as u32, payload.len() as u32];
    let mut bytes = Vec::new();
    put(&mut bytes, &[refusal, command, slot, weight, class]);
    put(&mut bytes, &places);
    bytes.extend_from_slice(payload);
    bytes
}
