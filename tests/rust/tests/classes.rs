//! What classes decide (request L2), by hand; and what they never do: any
//! table's total and marks are those of document 01's order.

use second::call::Call;
use second::compare::draw::Draw;
use second::compare::tables;
use second::compare::ties::{self, decided, PARTS};
use second::counts::{Class, Slot, Ticket, Weight};
use second::faults;
use second::hand::{calls, shown, table, BLANK_LAST, CLASSES_MIXED};
use second::listing::Entry;
use second::questions::Substitute;
use second::round::Round;
use second::rules::Rules;
use second::send::{Out, Step};
use second::table::{decode, row_at, row_mut, CLASS};

/// The table after a round's calls, none of them refused.
fn after(text: &str) -> Vec<u8> {
    let mut table = vec![0xEE; row_at(8)];
    for call in calls(text) {
        assert_eq!(Rules::PAPERS.answer(call, &mut table) & 0xFF, 0, "{text}: {call:?}");
    }
    table
}

/// The tickets that go out, one a slot, all in ordinary steps.
fn sent(table: &mut [u8], slots: usize) -> Vec<u32> {
    let send = |_| match Rules::PAPERS.send(table) {
        Ok(Step::Ordinary(Out::Frame(ticket) | Out::KeptBlank(ticket))) => ticket.0,
        other => panic!("{other:?}"),
    };
    (0..slots).map(send).collect()
}

/// The tickets of the plan's rows, as they are listed.
fn plan(table: &[u8]) -> Vec<u32> {
    let mut entries = [Entry::ZERO; 8];
    let count = Rules::PAPERS.list(table, &mut entries).expect("a plan");
    entries[..count]
        .iter()
        .map(|entry| entry.ticket.0)
        .collect()
}

fn substitute(ticket: u32, table: &[u8]) -> u32 {
    match Rules::PAPERS.substitute(Ticket(ticket), table) {
        Ok(Substitute::Ticket(found)) => found.0,
        other => panic!("{other:?}"),
    }
}

#[test]
fn of_equals_the_smaller_class() {
    assert_eq!(plan(&after("0; 0:5/2 0:5/1 0:5/3")), [2]);
    assert_eq!(plan(&after("1; 1:5/1 1:5 1:5/0")), [2, 3]);
    assert_eq!(plan(&after("2; 2:5/3 2:5/1 2:5/1 2:5/2")), [2, 3, 4]);
    assert_eq!(sent(&mut after("1; 1:5/1 1:5 1:5/0"), 2), [2, 3]);
    assert_eq!(sent(&mut after("2; 2:5/3 2:5 2:5/2 2:5/3 seal"), 3), [2, 3, 1]);
}

/// Weight and due slot come before the class.
#[test]
fn of_others_not_the_class() {
    assert_eq!(plan(&after("0; 0:5/0 0:6/3")), [2]);
    assert_eq!(plan(&after("1; 1:5/0 0:5/3 1:6/2")), [2, 3]);
    assert_eq!(plan(&after("2; 2:5/3 2:6/3 1:1/3 2:7/3")), [4, 2, 1]);
}

#[test]
fn lightest_and_substitutes() {
    let lightest = after("3; 3:9/0 3:9/3 3:9/1 2:9/3");
    assert_eq!(plan(&lightest), [4, 1, 3, 2]);
    for ticket in 1..=4 {
        assert_eq!(substitute(ticket, &lightest), 2, "ticket {ticket}");
    }
    let outside = after("3; 0:9 3:4/2 3:4/1 3:9 2:9 1:9");
    for ticket in [4, 5, 6] {
        assert_eq!(substitute(ticket, &outside), 3, "ticket {ticket}");
    }
}

/// The h of the smaller class is shifted; it and r keep their classes.
#[test]
fn shifts() {
    let mut table = after("3; 0:6 1:10 3:5/2 3:5/1 3:5/3");
    assert_eq!(substitute(2, &table), 5);
    assert_eq!(Rules::PAPERS.send(&mut table), Ok(Step::Leap(Out::Frame(Ticket(2)))));
    assert_eq!(shown(&decode(&table)), "3:5/2 (t3) 1:6/1 (t4) 3:5/3 (t5)");
}

/// A kept blank has class 3, whatever went out had.
#[test]
fn kept_blanks() {
    for class in 0..=3 {
        let mut table = after(&format!("1; 0:4 1:11/{class}"));
        assert_eq!(CLASS.get(row_mut(&mut table, 1)), class);
        assert_eq!(Rules::PAPERS.send(&mut table), Ok(Step::Leap(Out::Frame(Ticket(2)))));
        assert_eq!(CLASS.get(row_mut(&mut table, 0)), 3);
        assert_eq!(shown(&decode(&table)), "kept 1:4 (t2)");
    }
    assert_eq!(sent(&mut after("1; 0:4 1:11 S 1:4/2"), 1), [3]);
    assert_eq!(sent(&mut after("1; 0:4 1:11 S 1:4/3"), 1), [2]);
    assert_eq!(sent(&mut table(3, 1, BLANK_LAST), 2), [3, 2]);
    assert_eq!(plan(&table(8, 3, CLASSES_MIXED)), [4, 2, 6, 7]);
}

/// Without a class a frame has class 0: both calls leave the same bytes.
#[test]
fn class_0_by_either_call() {
    let (mut one, mut other) = (after("1; 1:5/3"), after("1; 1:5/3"));
    assert_eq!(Rules::PAPERS.take(Slot(1), Weight(7), &mut one), Ok(Ticket(2)));
    let taken = Rules::PAPERS.take_class(Slot(1), Weight(7), Class(0), &mut other);
    assert_eq!((taken, one), (Ok(Ticket(2)), other));
}

/// Total and marks of a table, with a fault or none.
fn amounts(second: &Rules, table: &[u8]) -> (u64, Vec<u32>) {
    let Round { slot, last, .. } = decode(table);
    let mark = |s| second.mark(Slot(s), table).expect("a mark").0;
    let marks = (slot.0..=last.0).map(mark).collect();
    (second.total(table).unwrap_or(0), marks)
}

/// Any order among equals gives the same total and marks, of any table.
#[test]
fn total_and_marks_are_those_of_the_old_order() {
    let orders = [
        "ClassNotCompared",
        "LargerClassHeavier",
        "TiesByLateTicket",
        "TiesByLateDue",
        "ClassBeforeDue",
    ];
    let orders = orders.map(faults::with);
    let (mut plans, size) = (0, tables::Size { rows: 9, last: 7 });
    for seed in 0..20_000 {
        let mut draw = Draw::new(seed);
        let table = match seed % 2 {
            0 => ties::drawn(&mut draw),
            _ => tables::drawn(&mut draw, size).0,
        };
        let own = amounts(Rules::PAPERS, &table);
        for second in &orders {
            assert_eq!(amounts(second, &table), own, "seed {seed}");
        }
        plans += usize::from(decided(&table).any(|part| part == "plan"));
    }
    assert!(plans > 1_000, "{plans}");
}

/// Raising a class by one changes no total and no mark, whatever it does to
/// the plan.
#[test]
fn other_classes_leave_total_and_marks() {
    for seed in 0..5_000 {
        let mut draw = Draw::new(seed);
        let mut table = ties::drawn(&mut draw);
        let own = amounts(Rules::PAPERS, &table);
        for (place, row) in decode(&table).rows.iter().enumerate() {
            if !row.kept {
                CLASS.put(row_mut(&mut table, place), (row.class.0 + 1) % 4);
            }
        }
        assert_eq!(amounts(Rules::PAPERS, &table), own, "seed {seed}");
    }
}

/// Drawn tables show each thing that a class decides.
#[test]
fn everything_is_decided_at_times() {
    let all: Vec<&str> = (0..4_000)
        .flat_map(|seed| {
            let table = ties::drawn(&mut Draw::new(seed));
            decided(&table).collect::<Vec<_>>()
        })
        .collect();
    for (part, _) in PARTS {
        let met = all.iter().filter(|met| *met == part).count();
        assert!(met > 20, "{part}: {met}");
    }
}

/// Each refused taking, and the frames taken after it.
#[test]
fn class_above_3() {
    let mut table = vec![0; row_at(3)];
    let replies: Vec<u64> = calls("1; 1:5/4 1:5/255 1:0/4 2:5/4 1:5/3")
        .into_iter()
        .map(|call: Call| Rules::PAPERS.answer(call, &mut table))
        .collect();
    assert_eq!(replies, [0, 14, 14, 6, 7, 1 << 8]);
    assert_eq!(shown(&decode(&table)), "1:5/3 (t1)");
}
