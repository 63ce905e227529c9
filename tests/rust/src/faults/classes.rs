//! Faults of classes: of the frames taken, of the rows kept, and of what is
//! told apart by them.

use super::change::{before, clause, reason, waive};
use super::Entry;
use crate::counts::Class;
use crate::leap::{leap, shifted};
use crate::order::Item;
use crate::plan::{plan, Plan};
use crate::refusal::Refusal;
use crate::round::{Round, Row};
use crate::rules::Rules;
use crate::send::{goes, send};
use crate::sound::{each, has_last_class, is_kept, used};
use crate::substitute::{substitute, Substitutes};
use crate::table::{decode, row_mut, CLASS, NEXT, USED};
use crate::taking::take_class;
use std::cmp::Ordering;
use std::sync::LazyLock;

pub const TAKING: &[Entry] = &[
    ("ClassFourTaken", "class 4 is taken", |rules| {
        reason(&mut rules.reasons.take, Refusal::Class, |asked| asked.argument.class > Class(4));
    }),
    ("AnyClassTaken", "any class is taken", |rules| {
        reason(&mut rules.reasons.take, Refusal::Class, |_| false);
    }),
    ("ClassThreeRefused", "class 3 gets 14", |rules| {
        reason(&mut rules.reasons.take, Refusal::Class, |asked| {
            asked.argument.class >= Round::CLASS
        });
    }),
    ("FourteenBeforeSeven", "14 comes before 7", |rules| {
        before(&mut rules.reasons.take, Refusal::Class, Refusal::Slot);
    }),
    ("FourteenBeforeSix", "14 comes before 6", |rules| {
        before(&mut rules.reasons.take, Refusal::Class, Refusal::Weight);
    }),
    ("FourteenBeforeThirteen", "14 comes before 13", |rules| {
        before(&mut rules.reasons.take, Refusal::Class, Refusal::Sealed);
    }),
    ("FourteenAfterNine", "8 and 9 come before 14", |rules| {
        before(&mut rules.reasons.take, Refusal::Tickets, Refusal::Class);
        before(&mut rules.reasons.take, Refusal::Full, Refusal::Class);
    }),
    ("ClassNotStored", "a frame is taken as one of class 0", |rules| {
        rules.calls.take_class = |rules, due, weight, class, table| {
            let ticket = take_class(rules, due, weight, class, table)?;
            CLASS.put(taken(table), 0);
            Ok(ticket)
        };
    }),
    ("ClassOneByteOff", "the class stands in byte 12", |rules| {
        rules.calls.take_class = |rules, due, weight, class, table| {
            let ticket = take_class(rules, due, weight, class, table)?;
            taken(table).swap(CLASS.at, CLASS.at + 1);
            Ok(ticket)
        };
    }),
    ("TakenAsClassThree", "without a class a frame has class 3", |rules| {
        rules.calls.take =
            |rules, due, weight, table| rules.take_class(due, weight, Round::CLASS, table);
    }),
    ("ClassCutToTwoBits", "the class is cut to two bits before it is judged", |rules| {
        rules.calls.take_class = |rules, due, weight, class, table| {
            take_class(rules, due, weight, Class(class.0 & 3), table)
        };
    }),
    ("RefusedClassWrites", "a taking refused by 14 raises the next ticket", |rules| {
        rules.calls.take_class = |rules, due, weight, class, table| {
            let taken = take_class(rules, due, weight, class, table);
            if taken == Err(Refusal::Class) {
                NEXT.put(table, NEXT.get(table) + 1);
            }
            taken
        };
    }),
    ("FrameOfClassThreeUnsound", "a frame of class 3 is unsound", |rules| {
        clause(&mut rules.sound, "kept blanks' class", |table| {
            used(table).all(|row| is_kept(row) == has_last_class(row))
        });
    }),
    ("ClassedUnsound", "a frame of another class than 0 is unsound", |rules| {
        clause(&mut rules.sound, "classes", |table| {
            used(table).all(|row| is_kept(row) || CLASS.get(row) == 0)
        });
    }),
];

pub const HIDDEN: &[Entry] = &[
    ("FourteenAfterEight", "8 comes before 14", |rules| {
        before(&mut rules.reasons.take, Refusal::Tickets, Refusal::Class);
    }),
    ("ClassCutShort", "the class is cut to a byte before it is judged", |rules| {
        rules.calls.take_class = |rules, due, weight, class, table| {
            take_class(rules, due, weight, Class(class.0 & 0xFF), table)
        };
    }),
    ("ClassFourSound", "a row of class 4 is sound", |rules| {
        clause(&mut rules.sound, "classes", |table| each(table, CLASS, |class| class <= 4));
    }),
    ("ClassUnchecked", "a row's class may be anything", |rules| {
        waive(&mut rules.sound, "classes");
    }),
    ("KeptBlankOfAnyClass", "a kept blank may have another class than 3", |rules| {
        waive(&mut rules.sound, "kept blanks' class");
    }),
    ("KeptBlankOfClassZeroSound", "a kept blank may have class 0 too", |rules| {
        clause(&mut rules.sound, "kept blanks' class", |table| {
            used(table).all(|row| !is_kept(row) || has_last_class(row) || CLASS.get(row) == 0)
        });
    }),
];

pub const SENDING: &[Entry] = &[
    ("ClassNotCompared", "heavier does not compare the class", |rules| {
        rules.planning.heaviest_first = without_class;
    }),
    ("ClassAfterTicket", "heavier compares the class after the ticket", |rules| {
        rules.planning.heaviest_first = |a, b| without_class(a, b).then(a.class.cmp(&b.class));
    }),
    ("LargerClassHeavier", "among equals the larger class is heavier", |rules| {
        rules.planning.heaviest_first = |a, b| by_class(a, b, b.class.cmp(&a.class));
    }),
    ("ClassBeforeDue", "heavier compares the class before the due slot", |rules| {
        rules.planning.heaviest_first = |a, b| {
            let heavier = b.weight.cmp(&a.weight).then(a.class.cmp(&b.class));
            heavier
                .then(a.due.cmp(&b.due))
                .then(a.ticket.cmp(&b.ticket))
        };
    }),
    ("ClassBeforeWeight", "heavier compares the class first", |rules| {
        rules.planning.heaviest_first = |a, b| a.class.cmp(&b.class).then(without_class(a, b));
    }),
    ("ClassesTwo", "heavier tells class 0 from the others alone", |rules| {
        rules.planning.heaviest_first = |a, b| {
            let class = |item: &Item| Class(item.class.0.min(1));
            by_class(a, b, class(a).cmp(&class(b)))
        };
    }),
    ("ClassesByTheirLowBit", "heavier compares the class's low bit alone", |rules| {
        rules.planning.heaviest_first = |a, b| {
            let class = |item: &Item| Class(item.class.0 & 1);
            by_class(a, b, class(a).cmp(&class(b)))
        };
    }),
    ("PlanWithoutClass", "equals are planned by ticket", |rules| {
        rules.planning.plan = |round, rules| {
            let mut found = Plan {
                rules,
                ..plan(round, &OLD_ORDER)
            };
            found.members.sort_by(|a, b| rules.canonical(a, b));
            found
        };
    }),
    ("CanonicalWithoutClass", "the canonical order does not compare the class", |rules| {
        rules.planning.plan = |round, rules| {
            let mut found = plan(round, rules);
            found.members.sort_by(|a, b| OLD_ORDER.canonical(a, b));
            found
        };
    }),
    ("PickWithoutClass", "among equals PlanM's pick is by ticket", |rules| {
        rules.planning.goes = |round, substitutes| match round.sealed {
            true => goes(round, substitutes),
            false => first_like(goes(round, substitutes), substitutes),
        };
    }),
    ("SealedWithoutClass", "in a sealed round the smaller ticket goes among equals", |rules| {
        rules.planning.goes = |round, substitutes| match round.sealed {
            true => first_like(goes(round, substitutes), substitutes),
            false => goes(round, substitutes),
        };
    }),
    ("SubstituteWithoutClass", "substitutes outside the plan are by ticket", |rules| {
        rules.planning.substitute = |of, member| match member.due <= of.first_end {
            true => substitute(of, member),
            false => old_substitute(of, member),
        };
    }),
    ("ShiftWithoutClass", "each h is by ticket among equals", |rules| {
        rules.planning.leap = |plan, p, r| {
            let mut leap = leap(plan, p, r);
            leap.shifted = shifted(&in_old_order(plan), p, r);
            leap
        };
    }),
    ("KeptBlankKeepsClass", "a kept blank has the class of what went out", |rules| {
        rules.planning.leap = |plan, p, r| {
            let mut leap = leap(plan, p, r);
            leap.kept.iter_mut().for_each(|kept| kept.class = p.class);
            leap
        };
    }),
    ("KeptBlankOfClassZero", "a kept blank has class 0", |rules| {
        rules.planning.leap = |plan, p, r| {
            let mut leap = leap(plan, p, r);
            leap.kept.iter_mut().for_each(|kept| kept.class = Class(0));
            leap
        };
    }),
    ("ShiftLosesClass", "a row given another due slot loses its class", |rules| {
        rules.calls.send = |rules, table| {
            let before = table.to_vec();
            let step = send(rules, table)?;
            lose_class(&decode(&before), table, |old, new| old.due != new.due);
            Ok(step)
        };
    }),
    ("RaisedLosesClass", "a row given another weight alone loses its class", |rules| {
        rules.calls.send = |rules, table| {
            let before = table.to_vec();
            let step = send(rules, table)?;
            lose_class(&decode(&before), table, |old, new| {
                old.due == new.due && old.weight != new.weight
            });
            Ok(step)
        };
    }),
    ("ClassStaysInPlace", "a row that moves up leaves its class behind", |rules| {
        rules.calls.send = |rules, table| {
            let before = table.to_vec();
            let step = send(rules, table)?;
            let old = decode(&before).rows;
            for (place, old) in old.iter().enumerate().take(USED.get(table) as usize) {
                CLASS.put(row_mut(table, place), old.class.0);
            }
            Ok(step)
        };
    }),
    ("FreedRowKeepsClass", "a row that is no longer in use keeps its class", |rules| {
        rules.calls.send = |rules, table| {
            let before = table.to_vec();
            let step = send(rules, table)?;
            let old = decode(&before).rows;
            for (place, old) in old.iter().enumerate().skip(USED.get(table) as usize) {
                CLASS.put(row_mut(table, place), old.class.0);
            }
            Ok(step)
        };
    }),
];

pub const SUBSTITUTE: &[Entry] =
    &[
        ("LightestWithoutClass", "the first segment's lightest is by ticket", |rules| {
            rules.planning.substitute = |of, member| match member.due <= of.first_end {
                true => old_substitute(of, member),
                false => substitute(of, member),
            };
        }),
    ];

/// Document 01's order.
fn without_class(a: &Item, b: &Item) -> Ordering {
    by_class(a, b, Ordering::Equal)
}

/// Heavier, with this for the class.
fn by_class(a: &Item, b: &Item, class: Ordering) -> Ordering {
    let heavier = b.weight.cmp(&a.weight).then(a.due.cmp(&b.due));
    heavier.then(class).then(a.ticket.cmp(&b.ticket))
}

/// The papers' rules with document 01's order.
static OLD_ORDER: LazyLock<Rules> = LazyLock::new(|| {
    let mut rules = Rules::PAPERS.clone();
    rules.planning.heaviest_first = without_class;
    rules
});

/// The same plan, for what is looked up in it by document 01's order.
fn in_old_order<'a>(plan: &Plan<'a>) -> Plan<'a> {
    Plan {
        rules: &OLD_ORDER,
        ..plan.clone()
    }
}

fn old_substitute(of: &Substitutes, member: Item) -> Item {
    Substitutes::of(&in_old_order(of.plan)).of_member(member)
}

/// Of the plan's rows with this one's due slot and weight the smallest ticket.
fn first_like(item: Item, substitutes: &Substitutes) -> Item {
    let members = substitutes.plan.members.iter();
    let like = members.filter(|other| (other.due, other.weight) == (item.due, item.weight));
    like.min_by_key(|other| other.ticket)
        .copied()
        .unwrap_or(item)
}

/// The row just filled.
fn taken(table: &mut [u8]) -> &mut [u8] {
    let used = USED.get(table) as usize;
    row_mut(table, used - 1)
}

/// Frames that a sending changed so have class 0 after it.
fn lose_class(before: &Round, table: &mut [u8], is_changed: fn(&Row, &Row) -> bool) {
    for (place, row) in decode(table).rows.iter().enumerate() {
        let old = before.rows.iter().find(|old| old.ticket == row.ticket);
        if !row.kept && old.is_some_and(|old| is_changed(old, row)) {
            CLASS.put(row_mut(table, place), 0);
        }
    }
}
