//! Faults of sealing, and of what a sealed round does.

use super::change::{before, one_more, reason};
use super::Entry;
use crate::opening::open;
use crate::order::Item;
use crate::reasons::{sealed, Reason};
use crate::refusal::Refusal;
use crate::round::Round;
use crate::sealing::seal;
use crate::send::{goes, pick, send};
use crate::substitute::Substitutes;
use crate::table::{is_sealed, SEALED, SLOT, USED};

pub const SEALING: &[Entry] = &[
    ("SealingTwiceRefused", "a sealed round is not sealed again, by 13", |rules| {
        rules.reasons.seal.to_mut().push((Refusal::Sealed, sealed));
    }),
    ("SealingToggles", "sealing twice unseals", |rules| {
        rules.calls.seal = |rules, table| {
            let was_sealed = is_sealed(table);
            seal(rules, table)?;
            SEALED.put(table, u32::from(!was_sealed));
            Ok(())
        };
    }),
    ("SealedPastLast", "a round that is over is sealed", |rules| {
        reason(&mut rules.reasons.seal, Refusal::Over, |_| false);
    }),
    ("NotSealedInLastSlot", "sealing gets 5 in the last slot", |rules| {
        reason(&mut rules.reasons.seal, Refusal::Over, |asked| {
            asked.round().slot >= asked.round().last
        });
    }),
    ("SealingMovesSlot", "sealing moves the slot on", |rules| {
        rules.calls.seal = |rules, table| {
            seal(rules, table)?;
            SLOT.put(table, SLOT.get(table) + 1);
            Ok(())
        };
    }),
    ("SealStoresNothing", "sealing is answered, and nothing is sealed", |rules| {
        rules.calls.seal = |rules, table| seal(rules, &mut table.to_vec());
    }),
    ("UnsoundSealed", "a table that is not sound is sealed", |rules| {
        reason(&mut rules.reasons.seal, Refusal::Unsound, |_| false);
    }),
    ("EmptyNotSealed", "a round without rows is not sealed", |rules| {
        rules.calls.seal = |rules, table| match seal(rules, &mut table.to_vec()) {
            Ok(()) if USED.get(table) == 0 => Ok(()),
            _ => seal(rules, table),
        };
    }),
];

pub const OPENING: &[Entry] =
    &[
        ("OpeningKeepsSeal", "a new round is sealed as the old one", |rules| {
            rules.calls.open = |rules, last, table| {
                let was_sealed = is_sealed(table);
                open(rules, last, table)?;
                SEALED.put(table, u32::from(was_sealed));
                Ok(())
            };
        }),
    ];

pub const TAKING: &[Entry] = &[
    ("SealedTakes", "a sealed round still takes frames", |rules| {
        reason(&mut rules.reasons.take, Refusal::Sealed, |_| false);
    }),
    ("SealedEmptyTakes", "a sealed round without rows takes a frame", |rules| {
        reason(&mut rules.reasons.take, Refusal::Sealed, |asked| {
            sealed(asked) && !asked.round().rows.is_empty()
        });
    }),
    ("ThirteenBeforeFive", "13 comes before 5", |rules| {
        before(&mut rules.reasons.take, Refusal::Sealed, Refusal::Over);
    }),
    ("ThirteenAfterSix", "6 comes before 13", |rules| {
        before(&mut rules.reasons.take, Refusal::Weight, Refusal::Sealed);
    }),
    ("ThirteenAfterSeven", "7 comes before 13", |rules| {
        before(&mut rules.reasons.take, Refusal::Slot, Refusal::Sealed);
    }),
];

pub const SENDING: &[Entry] = &[
    ("SealedPlaysPlanM", "a sealed round sends PlanM's pick", |rules| {
        rules.planning.goes = |_, substitutes| pick(substitutes);
    }),
    ("SealedRowsFirst", "a sealed round passes over silence while a row is planned", |rules| {
        rules.planning.goes = |round, substitutes| {
            let mut rows = substitutes.plan.members.iter();
            let row = rows.find(|item| round.sealed && item.ticket.is_some());
            row.copied().unwrap_or_else(|| goes(round, substitutes))
        };
    }),
    ("SealedSendsLeftOut", "a sealed round sends the first of all rows, planned or not", |rules| {
        rules.planning.goes = |round, substitutes| {
            let first = goes(round, substitutes);
            let outside = substitutes.plan.outside.iter();
            let rows = outside.filter(|item| round.sealed && item.ticket.is_some());
            let all = rows.chain([&first]);
            *all.min_by(|a, b| substitutes.plan.rules.canonical(a, b))
                .expect("the first")
        };
    }),
    ("SealedLateTicketFirst", "in a sealed round the larger ticket goes among equals", |rules| {
        rules.planning.goes = |round, substitutes| {
            sealed_last(round, substitutes, |a, b| {
                (a.due, a.weight, a.class) == (b.due, b.weight, b.class)
            })
        };
    }),
    ("SealedLightestFirst", "in a sealed round the lightest goes of those due first", |rules| {
        rules.planning.goes =
            |round, substitutes| sealed_last(round, substitutes, |a, b| a.due == b.due);
    }),
    ("SealedHeaviestFirst", "a sealed round sends the heaviest of its plan", |rules| {
        rules.planning.goes = |round, substitutes| {
            let plan = substitutes.plan;
            match round.sealed {
                true => *plan
                    .members
                    .iter()
                    .min_by(|a, b| plan.rules.heaviest_first(a, b))
                    .expect("a plan has members"),
                false => goes(round, substitutes),
            }
        };
    }),
    ("SendingUnseals", "a sending ends the seal", |rules| {
        rules.calls.send = |rules, table| {
            let step = send(rules, table)?;
            SEALED.put(table, 0);
            Ok(step)
        };
    }),
    ("SealedSendRefused", "a sealed round without rows is not sent, by 13", |rules| {
        let empty: Reason<()> =
            (Refusal::Sealed, |asked| sealed(asked) && asked.round().rows.is_empty());
        rules.reasons.send.to_mut().push(empty);
    }),
];

pub const MARK: &[Entry] =
    &[
        ("SealedMarkRefused", "a sealed round tells no mark, by 13", |rules| {
            one_more(&mut rules.reasons.mark, (Refusal::Sealed, sealed), Refusal::Slot);
        }),
    ];

pub const TOTAL: &[Entry] =
    &[
        ("SealedTotalRefused", "a sealed round tells no total, by 13", |rules| {
            rules.reasons.total.to_mut().push((Refusal::Sealed, sealed));
        }),
    ];

pub const SUBSTITUTE: &[Entry] =
    &[
        ("SealedSubstituteRefused", "a sealed round tells no substitute, by 13", |rules| {
            one_more(&mut rules.reasons.substitute, (Refusal::Sealed, sealed), Refusal::NoRow);
        }),
    ];

pub const LISTING: &[Entry] =
    &[
        ("SealedNotListed", "a sealed round is not listed, by 13", |rules| {
            one_more(&mut rules.reasons.list, (Refusal::Sealed, sealed), Refusal::Short);
        }),
    ];

/// In a sealed round the last of the rows that are like the first.
fn sealed_last(
    round: &Round,
    substitutes: &Substitutes,
    is_like: fn(&Item, &Item) -> bool,
) -> Item {
    let first = goes(round, substitutes);
    if !round.sealed || first.ticket.is_none() {
        return first;
    }
    let like = |item: &&Item| is_like(item, &first) && item.ticket.is_some();
    let last = substitutes.plan.members.iter().rfind(like);
    *last.unwrap_or(&first)
}
