//! Faults of opening.

use super::change::{before, reason};
use super::Entry;
use crate::counts::Slot;
use crate::opening::open;
use crate::questions::{mark, substitute, total};
use crate::reasons::{unsound, Asked};
use crate::refusal::Refusal;
use crate::round::Round;
use crate::rules::hold;
use crate::sealing::seal;
use crate::send::send;
use crate::table::{row_at, HEAD, HEAD_FIELDS, NEXT, ROW, ROW_FIELDS};
use crate::taking::take_class;

pub const FAULTS: &[Entry] = &[
    ("OneRowTooFew", "1,024 rows are refused", |rules| {
        reason(&mut rules.reasons.open, Refusal::Length, |asked| {
            !has_rows(asked, 1, Round::ROWS - 1)
        });
    }),
    ("LastLimitOff", "last slot 4,096 opens", |rules| {
        reason(&mut rules.reasons.open, Refusal::LastTooLate, |asked| {
            asked.argument.0 > Round::LAST.0 + 1
        });
    }),
    ("LastLimitOneShort", "last slot 4,095 gets 4", |rules| {
        reason(&mut rules.reasons.open, Refusal::LastTooLate, |asked| {
            asked.argument >= Round::LAST
        });
    }),
    ("OpeningJudgesOld", "opening refuses an unsound old table", |rules| {
        let old = (Refusal::Unsound, unsound as fn(&Asked<Slot>) -> bool);
        rules.reasons.open.to_mut().push(old);
    }),
    ("OpeningKeepsRows", "opening leaves the old rows", |rules| {
        rules.calls.open = |rules, last, table| {
            let rows = table.get(HEAD..).map(<[u8]>::to_vec);
            open(rules, last, table)?;
            table[HEAD..].copy_from_slice(&rows.unwrap_or_default());
            Ok(())
        };
    }),
    ("OpeningKeepsTicket", "tickets go on counting after an opening", |rules| {
        rules.calls.open = |rules, last, table| {
            let old = table.to_vec();
            open(rules, last, table)?;
            if hold(&rules.sound, &old) {
                NEXT.put(table, NEXT.get(&old));
            }
            Ok(())
        };
    }),
];

pub const HIDDEN: &[Entry] = &[
    ("AnyLengthAllowed", "a length that is not whole rows is allowed", |rules| {
        reason(&mut rules.reasons.open, Refusal::Length, |asked| {
            !(row_at(1)..row_at(Round::ROWS + 1)).contains(&asked.table.len())
        });
    }),
    ("NoRowAllowed", "a table of no row is allowed", |rules| {
        reason(&mut rules.reasons.open, Refusal::Length, |asked| !has_rows(asked, 0, Round::ROWS));
    }),
    ("OneRowTooMany", "1,025 rows are allowed", |rules| {
        reason(&mut rules.reasons.open, Refusal::Length, |asked| {
            !has_rows(asked, 1, Round::ROWS + 1)
        });
    }),
    ("LastCutShort", "the last slot is cut to two bytes before it is judged", |rules| {
        rules.calls.open = |rules, last, table| open(rules, Slot(last.0 & 0xFFFF), table);
    }),
    ("FourBeforeTwo", "4 comes before 2", |rules| {
        before(&mut rules.reasons.open, Refusal::LastTooLate, Refusal::Length);
    }),
    ("HighByteFirst", "numbers go high byte first", |rules| {
        let calls = &mut rules.calls;
        calls.open = |rules, last, table| turned(table, |table| open(rules, last, table));
        calls.take_class = |rules, due, weight, class, table| {
            turned(table, |table| take_class(rules, due, weight, class, table))
        };
        calls.send = |rules, table| turned(table, |table| send(rules, table));
        calls.seal = |rules, table| turned(table, |table| seal(rules, table));
        calls.mark =
            |rules, slot, table| turned(&mut table.to_vec(), |table| mark(rules, slot, table));
        calls.total = |rules, table| turned(&mut table.to_vec(), |table| total(rules, table));
        calls.substitute = |rules, ticket, table| {
            turned(&mut table.to_vec(), |table| substitute(rules, ticket, table))
        };
    }),
];

/// Whether a table has whole rows, and so many.
fn has_rows(asked: &Asked<Slot>, least: usize, most: usize) -> bool {
    (least..=most).any(|rows| asked.table.len() == row_at(rows))
}

/// A call on a table whose numbers stand the other way round.
fn turned<Reply>(table: &mut [u8], call: impl FnOnce(&mut [u8]) -> Reply) -> Reply {
    turn(table);
    let reply = call(table);
    turn(table);
    reply
}

fn turn(table: &mut [u8]) {
    let Some((head, rows)) = table.split_at_mut_checked(HEAD) else {
        return;
    };
    for field in HEAD_FIELDS {
        head[field.at..field.end()].reverse();
    }
    for row in rows.chunks_exact_mut(ROW) {
        for field in ROW_FIELDS {
            row[field.at..field.end()].reverse();
        }
    }
}
