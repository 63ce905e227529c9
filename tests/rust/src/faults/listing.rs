//! Faults of listing.

use super::change::{one_more, reason};
use super::Entry as Fault;
use crate::counts::Ticket;
use crate::listing::{list, listed, Entry};
use crate::order::Item;
use crate::plan::Plan;
use crate::reasons::Reason;
use crate::refusal::Refusal;
use crate::round::Round;
use crate::table::{decode, USED};
use std::cmp::Reverse;

pub const FAULTS: &[Fault] = &[
    ("ListedByTicket", "rows are listed in ticket order", |rules| {
        rules.planning.listed = |plan| sorted(plan, |item| item.ticket);
    }),
    ("ListedHeaviestFirst", "rows are listed from heaviest to lightest", |rules| {
        rules.planning.listed =
            |plan| sorted(plan, |item| (Reverse(item.weight), item.due, item.class, item.ticket));
    }),
    ("EqualsListedLateFirst", "among equals the larger ticket is listed first", |rules| {
        rules.planning.listed = |plan| {
            sorted(plan, |item| (item.due, Reverse(item.weight), item.class, Reverse(item.ticket)))
        };
    }),
    (
        "ListedWithoutClass",
        "among equals the smaller ticket is listed first, of any class",
        |rules| {
            rules.planning.listed =
                |plan| sorted(plan, |item| (item.due, Reverse(item.weight), item.ticket));
        },
    ),
    ("ListedLargerClassFirst", "among equals the larger class is listed first", |rules| {
        rules.planning.listed = |plan| {
            sorted(plan, |item| (item.due, Reverse(item.weight), Reverse(item.class), item.ticket))
        };
    }),
    ("ListedClassBeforeWeight", "in a due slot the smaller class is listed first", |rules| {
        rules.planning.listed =
            |plan| sorted(plan, |item| (item.due, item.class, Reverse(item.weight), item.ticket));
    }),
    ("AllRowsListed", "rows outside the plan are listed too", |rules| {
        rules.planning.listed = |plan| {
            let all = plan.members.iter().chain(&plan.outside);
            all.filter_map(Entry::of).collect()
        };
    }),
    ("BlanksListed", "blanks without rows are listed", |rules| {
        rules.planning.listed = |plan| plan.members.iter().map(of_any).collect();
    }),
    ("KeptBlanksNotListed", "kept blanks are left out", |rules| {
        rules.calls.list = |rules, table, entries| {
            let before = entries.to_vec();
            let count = list(rules, table, entries)?;
            let round = decode(table);
            let is_frame = |entry: &&Entry| !is_kept(&round, entry.ticket);
            let frames: Vec<Entry> = entries[..count].iter().filter(is_frame).copied().collect();
            entries.copy_from_slice(&before);
            entries[..frames.len()].copy_from_slice(&frames);
            Ok(frames.len())
        };
    }),
    ("CountOfAllRows", "the count is that of the waiting rows", |rules| {
        rules.calls.list = |rules, table, entries| {
            list(rules, table, entries)?;
            Ok(USED.get(table) as usize)
        };
    }),
    ("ListTouchesNext", "the entry past the count is cleared", |rules| {
        rules.calls.list = |rules, table, entries| {
            let count = list(rules, table, entries)?;
            entries[count..]
                .iter_mut()
                .take(1)
                .for_each(|entry| *entry = Entry::ZERO);
            Ok(count)
        };
    }),
    ("ListFillsOnTwelve", "entries are filled before 12 is given", |rules| {
        rules.calls.list = |rules, table, entries| {
            let answer = list(rules, table, entries);
            if answer == Err(Refusal::Short) {
                let mut all = [Entry::ZERO; Round::ROWS];
                list(rules, table, &mut all)?;
                entries.copy_from_slice(&all[..entries.len()]);
            }
            answer
        };
    }),
    ("ExactListRefused", "a list of just enough entries gets 12", |rules| {
        reason(&mut rules.reasons.list, Refusal::Short, |asked| {
            let count = asked.listed().len();
            asked.argument < count || asked.argument == count && count > 0
        });
    }),
    ("TwelveBeforeFive", "a list of no entry gets 12, not 5", |rules| {
        let short: Reason<usize> = (Refusal::Short, |asked| asked.argument == 0);
        one_more(&mut rules.reasons.list, short, Refusal::Over);
    }),
];

fn sorted<Key: Ord>(plan: &Plan, key: impl Fn(&Item) -> Key) -> Vec<Entry> {
    let mut plan = plan.clone();
    plan.members.sort_by_key(key);
    listed(&plan)
}

/// A blank has ticket 0.
fn of_any(item: &Item) -> Entry {
    let ticket = item.ticket.or(Some(Ticket(0)));
    Entry::of(&Item { ticket, ..*item }).expect("it has a ticket")
}

fn is_kept(round: &Round, ticket: Ticket) -> bool {
    round
        .place(ticket)
        .is_some_and(|place| round.rows[place].kept)
}
