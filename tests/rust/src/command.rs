//! The forms of text lines, and reading one as a command.

use crate::counts::{Class, Slot, Weight};
use crate::refusal::Refusal;
use crate::rules::{hold, Clause, Clauses, Rules};
use std::borrow::Cow;

/// The byte that ends a line.
pub const END: u8 = 0x0A;
/// A payload has at most 24 bytes of two digits.
pub const PAYLOAD_DIGITS: usize = 48;

#[derive(Clone, Copy, PartialEq, Eq, Debug)]
pub enum Command {
    Open {
        last: Slot,
    },
    Take {
        due: Slot,
        weight: Weight,
    },
    Send,
    Seal,
    TakeClass {
        due: Slot,
        weight: Weight,
        class: Class,
    },
}

/// The form of a command's line.
#[derive(Clone, Copy)]
pub struct Form {
    /// The digits that it begins with.
    pub line: &'static str,
    /// How many digits each of its numbers has.
    pub widths: &'static [usize],
    pub has_payload: bool,
    /// The command with these numbers.
    pub command: fn(&[u32]) -> Command,
}

pub const FORMS: &[Form] = &[
    Form {
        line: "00",
        widths: &[4],
        has_payload: false,
        command: |numbers| Command::Open {
            last: Slot(numbers[0]),
        },
    },
    Form {
        line: "01",
        widths: &[4, 8],
        has_payload: true,
        command: |numbers| Command::Take {
            due: Slot(numbers[0]),
            weight: Weight(numbers[1]),
        },
    },
    Form {
        line: "02",
        widths: &[],
        has_payload: false,
        command: |_| Command::Send,
    },
    Form {
        line: "03",
        widths: &[],
        has_payload: false,
        command: |_| Command::Seal,
    },
    Form {
        line: "04",
        widths: &[4, 8, 2],
        has_payload: true,
        command: |numbers| Command::TakeClass {
            due: Slot(numbers[0]),
            weight: Weight(numbers[1]),
            class: Class(numbers[2]),
        },
    },
];

impl Command {
    /// The digits that its line begins with, and its numbers.
    pub fn numbers(self) -> (&'static str, Vec<u32>) {
        match self {
            Command::Open { last } => ("00", vec![last.0]),
            Command::Take { due, weight } => ("01", vec![due.0, weight.0]),
            Command::Send => ("02", vec![]),
            Command::Seal => ("03", vec![]),
            Command::TakeClass { due, weight, class } => ("04", vec![due.0, weight.0, class.0]),
        }
    }
}

impl Form {
    /// The digits before a payload.
    pub fn front(&self) -> usize {
        self.line.len() + self.widths.iter().sum::<usize>()
    }
}

/// What a line may have in it.
#[derive(Clone)]
pub struct Lines {
    pub forms: Cow<'static, [Form]>,
    pub digit: fn(u8) -> Option<u32>,
    /// When digits could be a payload.
    pub payload: Clauses,
}

pub const LINES: Lines = Lines {
    forms: Cow::Borrowed(FORMS),
    digit,
    payload: Cow::Borrowed(PAYLOAD),
};

/// Digits 0 to 9 and A to F only.
pub fn digit(byte: u8) -> Option<u32> {
    match byte {
        b'0'..=b'9' => Some(u32::from(byte - b'0')),
        b'A'..=b'F' => Some(u32::from(byte - b'A') + 10),
        _ => None,
    }
}

/// 0 to 24 bytes, of two digits each.
const PAYLOAD: &[Clause] = &[
    ("digits", |digits| digits.iter().all(|byte| digit(*byte).is_some())),
    ("whole bytes", |digits| digits.len() % 2 == 0),
    ("at most 24", |digits| digits.len() <= PAYLOAD_DIGITS),
];

impl Lines {
    /// The form of a line that begins with these digits.
    pub fn form(&self, line: &[u8]) -> Option<&Form> {
        self.forms.iter().find(|form| form.line.as_bytes() == line)
    }

    /// Whether these may stand after a line's numbers.
    pub fn may_follow(&self, form: &Form, payload: &[u8]) -> bool {
        match form.has_payload {
            true => hold(&self.payload, payload),
            false => payload.is_empty(),
        }
    }

    /// The number that some digits stand for, at most eight.
    fn number(&self, digits: &[u8]) -> Option<u32> {
        let mut number = 0;
        for byte in digits {
            number = 16 * number + (self.digit)(*byte)?;
        }
        Some(number)
    }

    fn command(&self, line: &[u8]) -> Option<Command> {
        let (line, mut rest) = line.strip_suffix(&[END])?.split_at_checked(2)?;
        let form = self.form(line)?;
        let mut numbers = Vec::new();
        for width in form.widths {
            let (digits, after) = rest.split_at_checked(*width)?;
            numbers.push(self.number(digits)?);
            rest = after;
        }
        self.may_follow(form, rest)
            .then(|| (form.command)(&numbers))
    }
}

pub fn read(rules: &Rules, line: &[u8]) -> Result<Command, Refusal> {
    rules.reading.command(line).ok_or(Refusal::Line)
}
