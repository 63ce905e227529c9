//! Faults of writing lines.

use super::change::{clause, one_more, reason, waive};
use super::Entry;
use crate::command::Command;
use crate::counts::Slot;
use crate::reasons::WritingReason;
use crate::refusal::Refusal;
use crate::round::Round;
use crate::writer::{line, write};

pub const FAULTS: &[Entry] = &[
    ("TwelveBeforeOne", "12 comes before 1", |rules| {
        let short: WritingReason = (Refusal::Short, |_, room| room < 3);
        one_more(&mut rules.reasons.write, short, Refusal::Line);
    }),
    ("SlotCutInWriting", "a slot above FFFF is cut and written", |rules| {
        rules.calls.write =
            |rules, command, payload, buffer| write(rules, with_slot_cut(command), payload, buffer);
    }),
    ("LowerCaseWritten", "digits are written in lower case", |rules| {
        rules.calls.write = |rules, command, payload, buffer| {
            let length = write(rules, command, payload, buffer)?;
            buffer[..length].make_ascii_lowercase();
            Ok(length)
        };
    }),
    ("OddPayloadWritten", "an odd number of payload digits is written", |rules| {
        waive(&mut rules.writing.payload, "whole bytes");
    }),
    ("LongPayloadWritten", "a payload of more than 24 bytes is written", |rules| {
        waive(&mut rules.writing.payload, "at most 24");
    }),
    ("LowerCasePayloadWritten", "a payload in lower case is written", |rules| {
        clause(&mut rules.writing.payload, "digits", |digits| {
            digits.iter().all(u8::is_ascii_hexdigit)
        });
    }),
    ("PayloadAlwaysWritten", "open, send and seal are written with a payload", |rules| {
        for form in rules.writing.forms.to_mut() {
            form.has_payload = true;
        }
    }),
    ("SealWrittenAsSend", "seal is written as send", |rules| {
        rules.calls.write = |rules, command, payload, buffer| match command {
            Command::Seal => write(rules, Command::Send, payload, buffer),
            _ => write(rules, command, payload, buffer),
        };
    }),
    ("SealUnwritten", "seal gets 1", |rules| {
        rules
            .writing
            .forms
            .to_mut()
            .retain(|form| form.line != "03");
    }),
    ("ExactBufferRefused", "a buffer of the line's length gets 12", |rules| {
        reason(&mut rules.reasons.write, Refusal::Short, |line, room| {
            line.is_some_and(|line| room <= line.len())
        });
    }),
    ("LengthWithoutEnd", "the length leaves out the 0A", |rules| {
        rules.calls.write =
            |rules, command, payload, buffer| Ok(write(rules, command, payload, buffer)? - 1);
    }),
    ("WriterTouchesNext", "the byte past the line is cleared", |rules| {
        rules.calls.write = |rules, command, payload, buffer| {
            let length = write(rules, command, payload, buffer)?;
            buffer[length..]
                .iter_mut()
                .take(1)
                .for_each(|byte| *byte = 0);
            Ok(length)
        };
    }),
    ("WriterFillsOnTwelve", "the buffer is filled before 12 is given", |rules| {
        rules.calls.write = |rules, command, payload, buffer| {
            let answer = write(rules, command, payload, buffer);
            if answer == Err(Refusal::Short) {
                let line = line(&rules.writing, command, payload).unwrap_or_default();
                buffer.copy_from_slice(&line[..buffer.len()]);
            }
            answer
        };
    }),
    ("WriterJudgesWeight", "a weight above 16,777,216 gets 1", |rules| {
        rules.calls.write = |rules, command, payload, buffer| match command {
            Command::Take { weight, .. } | Command::TakeClass { weight, .. }
                if weight > Round::WEIGHT =>
            {
                Err(Refusal::Line)
            }
            _ => write(rules, command, payload, buffer),
        };
    }),
];

fn with_slot_cut(command: Command) -> Command {
    let cut = |slot: Slot| Slot(slot.0 & 0xFFFF);
    match command {
        Command::Open { last } => Command::Open { last: cut(last) },
        Command::Take { due, weight } => Command::Take {
            due: cut(due),
            weight,
        },
        Command::TakeClass { due, weight, class } => Command::TakeClass {
            due: cut(due),
            weight,
            class,
        },
        other => other,
    }
}
