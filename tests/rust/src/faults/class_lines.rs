//! Faults of line 04 and of what it has to do with 01.

use super::Entry;
use crate::command::{read, Command, Form, Lines};
use crate::counts::{Class, Slot, Weight};
use crate::payload::place;
use crate::refusal::Refusal;
use crate::round::Round;
use crate::station::reply;
use crate::writer::write;

pub const READING: &[Entry] = &[
    ("ClassUnread", "line 04 gets 1", |rules| {
        rules
            .reading
            .forms
            .to_mut()
            .retain(|form| form.line != "04");
    }),
    ("ClassDropped", "line 04 is read as 01", |rules| {
        rules.calls.read = |rules, line| {
            Ok(match read(rules, line)? {
                Command::TakeClass { due, weight, .. } => Command::Take { due, weight },
                other => other,
            })
        };
    }),
    ("ClassReadBeforeWeight", "line 04 has the class before the weight", |rules| {
        with_form(&mut rules.reading, |form| {
            form.widths = &[4, 2, 8];
            form.command = |numbers| classed(numbers[0], numbers[2], numbers[1]);
        });
    }),
    ("ClassReadFirst", "line 04 has the class before the due slot", |rules| {
        with_form(&mut rules.reading, |form| {
            form.widths = &[2, 4, 8];
            form.command = |numbers| classed(numbers[1], numbers[2], numbers[0]);
        });
    }),
    ("ClassOfOneDigit", "the class of a line 04 has one digit", |rules| {
        with_form(&mut rules.reading, |form| form.widths = &[4, 8, 1]);
    }),
    ("ClassPayloadUnread", "line 04 with a payload gets 1", |rules| {
        with_form(&mut rules.reading, |form| form.has_payload = false);
    }),
    ("ClassJudgedInReading", "a class above 3 gets 1, not 14", |rules| {
        rules.calls.read = |rules, line| match read(rules, line)? {
            Command::TakeClass { class, .. } if class > Round::CLASS => Err(Refusal::Line),
            other => Ok(other),
        };
    }),
];

/// The program's replies are the same.
pub const HIDDEN: &[Entry] = &[("ClassGiven", "line 01 is read as 04 of class 0", |rules| {
    rules.calls.read = |rules, line| {
        Ok(match read(rules, line)? {
            Command::Take { due, weight } => classed(due.0, weight.0, 0),
            other => other,
        })
    };
})];

pub const PAYLOAD: &[Entry] = &[
    ("PayloadWithClass", "the payload of a line 04 has the class's digits too", |rules| {
        rules.calls.payload_place = |rules, line| match (place(rules, line), rules.read(line)) {
            ((start, end), Ok(Command::TakeClass { .. })) if end > 0 => (start - 2, end),
            (found, _) => found,
        };
    }),
    ("ClassPayloadEmpty", "a line 04 has no payload", |rules| {
        rules.calls.payload_place = |rules, line| match rules.read(line) {
            Ok(Command::TakeClass { .. }) => (0, 0),
            _ => place(rules, line),
        };
    }),
];

pub const WRITING: &[Entry] = &[
    ("ClassUnwritten", "a taking with a class gets 1", |rules| {
        rules
            .writing
            .forms
            .to_mut()
            .retain(|form| form.line != "04");
    }),
    ("ClassWrittenAs01", "a taking with a class is written without it", |rules| {
        rules.calls.write = |rules, command, payload, buffer| match command {
            Command::TakeClass { due, weight, .. } => {
                write(rules, Command::Take { due, weight }, payload, buffer)
            }
            _ => write(rules, command, payload, buffer),
        };
    }),
    ("WrittenAs04", "a taking without a class is written with class 0", |rules| {
        rules.calls.write = |rules, command, payload, buffer| match command {
            Command::Take { due, weight } => {
                write(rules, classed(due.0, weight.0, 0), payload, buffer)
            }
            _ => write(rules, command, payload, buffer),
        };
    }),
    ("ClassWrittenBeforeWeight", "the class is written before the weight", |rules| {
        rules.calls.write = |rules, command, payload, buffer| {
            let length = write(rules, command, payload, buffer)?;
            if matches!(command, Command::TakeClass { .. }) {
                buffer[6..16].rotate_right(2);
            }
            Ok(length)
        };
    }),
    ("ClassCutInWriting", "a class above FF is cut and written", |rules| {
        rules.calls.write = |rules, command, payload, buffer| match command {
            Command::TakeClass { due, weight, class } => {
                write(rules, classed(due.0, weight.0, class.0 & 0xFF), payload, buffer)
            }
            _ => write(rules, command, payload, buffer),
        };
    }),
    ("WriterJudgesClass", "a class above 3 gets 1", |rules| {
        rules.calls.write = |rules, command, payload, buffer| match command {
            Command::TakeClass { class, .. } if class > Round::CLASS => Err(Refusal::Line),
            _ => write(rules, command, payload, buffer),
        };
    }),
    ("ClassPayloadUnwritten", "a taking with a class is written without payload", |rules| {
        with_form(&mut rules.writing, |form| form.has_payload = false);
    }),
];

pub const REPLIES: &[Entry] = &[
    ("ClassReplied04", "line 04 is replied with 04", |rules| {
        rules.calls.reply = |rules, table, line| {
            let mut answer = reply(rules, table, line);
            if line.starts_with(b"04") && answer.text.starts_with("01") {
                answer.text.replace_range(..2, "04");
            }
            answer
        };
    }),
    ("Line04AsClassZero", "line 04 takes a frame of class 0", |rules| {
        rules.calls.reply = |rules, table, line| match rules.read(line) {
            Ok(Command::TakeClass { due, weight, class }) if class <= Round::CLASS => {
                let line = format!("01{:04X}{:08X}\n", due.0, weight.0);
                reply(rules, table, line.as_bytes())
            }
            _ => reply(rules, table, line),
        };
    }),
    ("Line01AsClassThree", "line 01 takes a frame of class 3", |rules| {
        rules.calls.reply = |rules, table, line| match rules.read(line) {
            Ok(Command::Take { due, weight }) => {
                let line = format!("04{:04X}{:08X}03\n", due.0, weight.0);
                reply(rules, table, line.as_bytes())
            }
            _ => reply(rules, table, line),
        };
    }),
];

fn classed(due: u32, weight: u32, class: u32) -> Command {
    Command::TakeClass {
        due: Slot(due),
        weight: Weight(weight),
        class: Class(class),
    }
}

/// Changes the form of line 04.
fn with_form(lines: &mut Lines, change: fn(&mut Form)) {
    let forms = lines.forms.to_mut().iter_mut();
    forms.filter(|form| form.line == "04").for_each(change);
}
