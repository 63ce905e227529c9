//! Faults of reading lines.

use super::change::{clause, waive};
use super::Entry;
use crate::command::{digit, read, Command, Lines, END, PAYLOAD_DIGITS};
use crate::counts::Weight;
use crate::refusal::Refusal;
use crate::rules::Rules;

pub const FAULTS: &[Entry] = &[
    ("LowerCaseRead", "lower-case digits are read", |rules| {
        rules.reading.digit = |byte| digit(byte.to_ascii_uppercase());
    }),
    ("BytesAfterNineRead", "the bytes between 9 and A are read as digits", |rules| {
        rules.reading.digit = |byte| match byte {
            b':'..=b'@' => Some(u32::from(byte - b':')),
            _ => digit(byte),
        };
    }),
    ("GRead", "G is read as a digit", |rules| {
        rules.reading.digit = |byte| match byte {
            b'G' => Some(0),
            _ => digit(byte),
        };
    }),
    ("OddPayloadRead", "an odd number of payload digits is read", |rules| {
        waive(&mut rules.reading.payload, "whole bytes");
    }),
    ("LongPayloadRead", "a payload of 25 bytes is read", |rules| {
        clause(&mut rules.reading.payload, "at most 24", |digits| {
            digits.len() <= PAYLOAD_DIGITS + 2
        });
    }),
    ("LongestPayloadRefused", "a payload of 24 bytes gets 1", |rules| {
        clause(&mut rules.reading.payload, "at most 24", |digits| {
            digits.len() <= PAYLOAD_DIGITS - 2
        });
    }),
    ("AnyPayloadRead", "payload bytes may be anything", |rules| {
        waive(&mut rules.reading.payload, "digits");
    }),
    ("OpenPayloadRead", "open is read with a payload", |rules| {
        give_payload(&mut rules.reading, "00");
    }),
    ("SendPayloadRead", "send is read with a payload", |rules| {
        give_payload(&mut rules.reading, "02");
    }),
    ("SealPayloadRead", "seal is read with a payload", |rules| {
        give_payload(&mut rules.reading, "03");
    }),
    ("SealUnread", "line 03 gets 1", |rules| {
        rules
            .reading
            .forms
            .to_mut()
            .retain(|form| form.line != "03");
    }),
    ("SealReadAsSend", "line 03 is read as send", |rules| {
        rules.calls.read = |rules, line| match read(rules, line)? {
            Command::Seal => Ok(Command::Send),
            other => Ok(other),
        };
    }),
    ("ShortOpenRead", "open is read with fewer digits", |rules| {
        rules.calls.read = |rules, line| match line {
            [b'0', b'0', digits @ .., END] if (1..4).contains(&digits.len()) => {
                let zeros = &b"0000"[digits.len()..];
                read(rules, &[b"00", zeros, digits, &[END]].concat())
            }
            _ => read(rules, line),
        };
    }),
    ("UnknownNumberRead", "any other line number is read as send", |rules| {
        rules.calls.read = |rules, line| match (read(rules, line), line) {
            (Err(Refusal::Line), [a, b, END]) if digit(*a).and(digit(*b)).is_some() => {
                Ok(Command::Send)
            }
            (answer, _) => answer,
        };
    }),
    ("UnendedRead", "a line without its 0A is read", |rules| {
        rules.calls.read = |rules, line| match line.ends_with(&[END]) {
            true => read(rules, line),
            false => read(rules, &[line, &[END]].concat()),
        };
    }),
    ("CarriageReturnRead", "0D before 0A is dropped", |rules| {
        rules.calls.read = |rules, line| {
            read_cut(rules, line, |digits| digits.strip_suffix(b"\r").unwrap_or(digits))
        };
    }),
    ("SpaceRead", "spaces at the end are dropped", |rules| {
        rules.calls.read = |rules, line| read_cut(rules, line, <[u8]>::trim_ascii_end);
    }),
    ("NulEndsLine", "a line is read up to a NUL byte", |rules| {
        rules.calls.read = |rules, line| {
            read_cut(rules, line, |digits| {
                digits.split(|byte| *byte == 0).next().unwrap_or_default()
            })
        };
    }),
    ("WeightCutShort", "a weight is cut to three bytes", |rules| {
        rules.calls.read = |rules, line| {
            let cut = |weight: Weight| Weight(weight.0 & 0xFF_FFFF);
            Ok(match read(rules, line)? {
                Command::Take { due, weight } => Command::Take {
                    due,
                    weight: cut(weight),
                },
                Command::TakeClass { due, weight, class } => Command::TakeClass {
                    due,
                    weight: cut(weight),
                    class,
                },
                other => other,
            })
        };
    }),
];

fn give_payload(lines: &mut Lines, line: &str) {
    let forms = lines.forms.to_mut().iter_mut();
    let own = forms.filter(|form| form.line == line);
    own.for_each(|form| form.has_payload = true);
}

/// Reads the line with less before its 0A.
fn read_cut(rules: &Rules, line: &[u8], cut: fn(&[u8]) -> &[u8]) -> Result<Command, Refusal> {
    let digits = line.strip_suffix(&[END]).ok_or(Refusal::Line)?;
    read(rules, &[cut(digits), &[END]].concat())
}
