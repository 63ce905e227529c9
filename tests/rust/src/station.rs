//! The program stationround: one reply for each line of its input.

use crate::command::{Command, END};
use crate::counts::Ticket;
use crate::refusal::Refusal;
use crate::round::Round;
use crate::rules::Rules;
use crate::send::{Out, Step};
use crate::table::row_at;

/// The text of one reply with its 0A, and whether the program goes on.
pub struct Reply {
    pub text: String,
    pub goes_on: bool,
}

/// A table of 1,024 rows, all zero at first.
pub fn fresh(_: &Rules) -> Vec<u8> {
    vec![0; row_at(Round::ROWS)]
}

/// It stops after refusal 1.
pub fn reply(rules: &Rules, table: &mut [u8], line: &[u8]) -> Reply {
    let command = rules.read(line);
    let goes_on = command.is_ok();
    let answer = command.and_then(|command| answer(rules, command, table));
    let text = answer.unwrap_or_else(|refusal| format!("FF{:02X}\n", refusal.number()));
    Reply { text, goes_on }
}

fn answer(rules: &Rules, command: Command, table: &mut [u8]) -> Result<String, Refusal> {
    match command {
        Command::Open { last } => {
            rules.open(last, table)?;
            Ok("00\n".to_string())
        }
        Command::Take { due, weight } => {
            let ticket = rules.take(due, weight, table)?;
            Ok(taken(ticket))
        }
        Command::Send => {
            let step = rules.send(table)?;
            Ok(sent(step))
        }
        Command::Seal => {
            rules.seal(table)?;
            Ok("03\n".to_string())
        }
        Command::TakeClass { due, weight, class } => {
            let ticket = rules.take_class(due, weight, class, table)?;
            Ok(taken(ticket))
        }
    }
}

/// The same for both lines that take a frame.
fn taken(ticket: Ticket) -> String {
    format!("01{:08X}\n", ticket.0)
}

/// What went out, the step, and the ticket; zeros stand for silence.
fn sent(step: Step) -> String {
    let (out, leap) = match step {
        Step::Ordinary(out) => (out, 0),
        Step::Leap(out) => (out, 1),
    };
    let (what, ticket) = match out {
        Out::Silence => (0, Ticket(0)),
        Out::Frame(ticket) => (1, ticket),
        Out::KeptBlank(ticket) => (2, ticket),
    };
    format!("02{what:02X}{leap:02X}{:08X}\n", ticket.0)
}

pub fn printed(rules: &Rules, input: &[u8]) -> String {
    let mut table = rules.fresh();
    let mut output = String::new();
    for line in input.split_inclusive(|byte| *byte == END) {
        let reply = rules.reply(&mut table, line);
        output.push_str(&reply.text);
        if !reply.goes_on {
            break;
        }
    }
    output
}
