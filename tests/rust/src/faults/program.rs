//! Faults of the program's replies.

use super::Entry;
use crate::command::END;
use crate::round::Round;
use crate::rules::Rules;
use crate::station::{fresh, printed, reply, Reply};
use crate::table::{row_at, NEXT};

pub const FAULTS: &[Entry] = &[
    ("GoesOnAfterOne", "it goes on after refusal 1", |rules| {
        rules.calls.reply = |rules, table, line| Reply {
            goes_on: true,
            ..reply(rules, table, line)
        };
    }),
    ("StopsAfterAny", "it stops after every refusal", |rules| {
        rules.calls.reply = |rules, table, line| {
            let Reply { text, .. } = reply(rules, table, line);
            let goes_on = !text.starts_with("FF");
            Reply { text, goes_on }
        };
    }),
    ("EmptyInputReplied", "empty input gets FF01", |rules| {
        rules.calls.printed = |rules, input| match input {
            [] => "FF01\n".to_string(),
            _ => printed(rules, input),
        };
    }),
    ("UnendedNotReplied", "an unended last line gets no reply", |rules| {
        rules.calls.reply = |rules, table, line| match line.ends_with(&[END]) {
            true => reply(rules, table, line),
            false => passed_over(),
        };
    }),
    ("EmptyLineSkipped", "an empty line is passed over", |rules| {
        rules.calls.reply = |rules, table, line| match line {
            [END] => passed_over(),
            _ => reply(rules, table, line),
        };
    }),
    ("OpenAtFirst", "a round is open at first", |rules| {
        rules.calls.fresh = |rules| {
            let mut table = fresh(rules);
            rules.open(Round::LAST, &mut table).expect("an opening");
            table
        };
    }),
    ("OneRowLess", "the table has 1,023 rows", |rules| {
        rules.calls.fresh = |_| vec![0; row_at(Round::ROWS - 1)];
    }),
    ("RefusedOpeningCloses", "a refused opening closes the round", |rules| {
        rules.calls.open = |rules, last, table| {
            let opened = crate::opening::open(rules, last, table);
            if opened.is_err() {
                table.fill(0);
            }
            opened
        };
    }),
    ("StepsExchanged", "ordinary and leap are exchanged in a reply", |rules| {
        rules.calls.reply =
            |rules, table, line| edited(rules, table, line, |text| exchange(text, 4, ["00", "01"]));
    }),
    ("OutsExchanged", "frame and kept blank are exchanged in a reply", |rules| {
        rules.calls.reply =
            |rules, table, line| edited(rules, table, line, |text| exchange(text, 2, ["01", "02"]));
    }),
    ("TicketInDecimal", "tickets are replied in decimal", |rules| {
        rules.calls.reply = |rules, table, line| {
            edited(rules, table, line, |text| {
                if let Some(at) = ticket_at(text) {
                    let ticket = u32::from_str_radix(&text[at..at + 8], 16);
                    let ticket = ticket.expect("eight digits");
                    text.replace_range(at..at + 8, &format!("{ticket:08}"));
                }
            })
        };
    }),
    ("LowerCaseReplied", "replies are in lower case", |rules| {
        rules.calls.reply =
            |rules, table, line| edited(rules, table, line, |text| text.make_ascii_lowercase());
    }),
    ("SealReplied00", "a sealing is replied as an opening", |rules| {
        rules.calls.reply = |rules, table, line| {
            edited(rules, table, line, |text| {
                if text == "03\n" {
                    text.replace_range(1..2, "0");
                }
            })
        };
    }),
    ("SilenceHasTicket", "silence is replied with the next ticket", |rules| {
        rules.calls.reply = |rules, table, line| {
            let mut answer = reply(rules, table, line);
            if let (true, Some(at)) = (answer.text.starts_with("0200"), ticket_at(&answer.text)) {
                let next = format!("{:08X}", NEXT.get(table));
                answer.text.replace_range(at..at + 8, &next);
            }
            answer
        };
    }),
];

fn passed_over() -> Reply {
    Reply {
        text: String::new(),
        goes_on: true,
    }
}

/// The reply with another text.
fn edited(rules: &Rules, table: &mut [u8], line: &[u8], edit: fn(&mut String)) -> Reply {
    let mut reply = reply(rules, table, line);
    edit(&mut reply.text);
    reply
}

/// Puts one of two words in the other's place in a reply to a sending.
fn exchange(text: &mut String, at: usize, [one, other]: [&str; 2]) {
    if !text.starts_with("02") {
        return;
    }
    let word = match &text[at..at + 2] {
        word if word == one => other,
        word if word == other => one,
        _ => return,
    };
    text.replace_range(at..at + 2, word);
}

/// Where the ticket stands in the reply to a taking or a sending.
fn ticket_at(text: &str) -> Option<usize> {
    match &text[..2] {
        "01" => Some(2),
        "02" => Some(6),
        _ => None,
    }
}
