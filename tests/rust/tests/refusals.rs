//! Each refusal under its condition, in order, and nothing changed by it.

use second::call::Call;
use second::counts::{Class, Slot, Ticket, Weight};
use second::hand::table;
use second::listing::Entry;
use second::refusal::Refusal;
use second::rules::Rules;
use second::table::{row_at, row_mut, CLASS, NEXT, SEALED, SLOT, TICKET};

/// A refused call: its number, and the table as it was.
fn refused(call: Call, table: &[u8], number: u64) {
    let mut lent = table.to_vec();
    assert_eq!(Rules::PAPERS.answer(call, &mut lent), number, "{call:?}");
    assert_eq!(lent, table, "{call:?}");
}

/// Every call with arguments that no number but 2, 3 and 5 speaks against.
fn every_call() -> [Call; 7] {
    [
        Call::Take { due: 0, weight: 1 },
        Call::TakeClass {
            due: 0,
            weight: 1,
            class: 3,
        },
        Call::Send,
        Call::Seal,
        Call::Mark { slot: 0 },
        Call::Total,
        Call::Substitute { ticket: 1 },
    ]
}

#[test]
fn two_then_three_then_five() {
    for length in (0..100).chain([row_at(1_024) - 1, row_at(1_024) + 1, row_at(1_025)]) {
        let good = (1..=1_024).any(|rows| length == 16 + 24 * rows);
        for call in every_call() {
            refused(call, &vec![0; length], if good { 3 } else { 2 });
        }
        if !good {
            refused(Call::Open { last: 5_000 }, &vec![0; length], 2);
        }
    }
    let mut over = table(1, 0, &[]);
    SLOT.put(&mut over, 1);
    for call in every_call() {
        refused(call, &over, 5);
    }
    refused(Call::Take { due: 9, weight: 0 }, &over, 5);
    refused(Call::Mark { slot: 9 }, &over, 5);
    let class = Call::TakeClass {
        due: 9,
        weight: 0,
        class: 4,
    };
    refused(class, &over, 5);
}

#[test]
fn six_to_nine() {
    let mut full = table(1, 2, &[(16_777_215, 1, 1, Some(0))]);
    let take = |due, weight| Call::Take { due, weight };
    refused(take(3, 0), &full, 6);
    refused(take(3, 16_777_217), &full, 6);
    refused(take(3, 16_777_216), &full, 7);
    refused(take(65_536, 1), &full, 7);
    refused(take(2, 1), &full, 8);
    NEXT.put(&mut full, 16_777_215);
    TICKET.put(row_mut(&mut full, 0), 1);
    refused(take(2, 1), &full, 9);
}

/// 14 comes after 7 and before 8; class 3 is taken.
#[test]
fn fourteen_in_taking() {
    let take = |due, weight, class| Call::TakeClass { due, weight, class };
    let mut full = table(1, 2, &[(16_777_215, 1, 1, Some(3))]);
    refused(take(3, 0, 4), &full, 6);
    refused(take(3, 1, 4), &full, 7);
    for class in [4, 5, 255, 256, 259, 65_536, u32::MAX] {
        refused(take(2, 1, class), &full, 14);
    }
    for class in 0..=3 {
        refused(take(2, 1, class), &full, 8);
    }
    NEXT.put(&mut full, 16_777_215);
    TICKET.put(row_mut(&mut full, 0), 1);
    refused(take(2, 1, 4), &full, 14);
    refused(take(2, 1, 3), &full, 9);
    SEALED.put(&mut full, 1);
    refused(take(2, 1, 4), &full, 13);
}

/// A class above 3 is not sound, nor is a kept blank of another class.
#[test]
fn classes_of_rows() {
    let mut lent = table(3, 2, &[(2, 1, 5, Some(1)), (4, 2, 5, None)]);
    for class in 0..=255 {
        CLASS.put(row_mut(&mut lent, 0), class);
        let reply = Rules::PAPERS.answer(Call::Total, &mut lent);
        assert_eq!(reply, if class <= 3 { 10 << 8 } else { 3 }, "class {class}");
    }
    CLASS.put(row_mut(&mut lent, 0), 3);
    for class in (0..=255).filter(|class| *class != 3) {
        CLASS.put(row_mut(&mut lent, 1), class);
        for call in every_call() {
            refused(call, &lent, 3);
        }
    }
    CLASS.put(row_mut(&mut lent, 1), 3);
    for at in 12..24 {
        row_mut(&mut lent, 1)[at] = 3;
        refused(Call::Total, &lent, 3);
        row_mut(&mut lent, 1)[at] = 0;
    }
}

/// 13 comes after 5 and before 6; every other call goes on, and a value above
/// 1 is not sound.
#[test]
fn thirteen_in_taking() {
    let take = |due, weight| Call::Take { due, weight };
    let mut sealed = table(1, 2, &[(16_777_215, 1, 1, Some(0))]);
    SEALED.put(&mut sealed, 1);
    for call in [take(1, 1), take(3, 1), take(3, 0), take(65_536, 16_777_217)] {
        refused(call, &sealed, 13);
    }
    for call in every_call()
        .into_iter()
        .skip(2)
        .chain([Call::Open { last: 9 }])
    {
        let number = match call {
            Call::Substitute { .. } => 10,
            _ => 0,
        };
        let reply = Rules::PAPERS.answer(call, &mut sealed.clone());
        assert_eq!(reply & 0xFF, number, "{call:?}");
    }
    for value in [2, 3, 128, 255] {
        SEALED.put(&mut sealed, value);
        for call in every_call() {
            refused(call, &sealed, 3);
        }
    }
    let mut over = table(1, 0, &[]);
    SLOT.put(&mut over, 1);
    SEALED.put(&mut over, 1);
    for call in every_call() {
        refused(call, &over, 5);
    }
}

/// Only byte 10 changes, once; an accepted opening clears it, a refused one
/// does not.
#[test]
fn sealing_sets_one_byte() {
    let open = table(3, 2, &[(2, 1, 5, Some(0)), (4, 2, 5, None)]);
    let mut sealed = open.clone();
    sealed[10] = 1;
    let mut lent = open.clone();
    for _ in 0..2 {
        assert_eq!(Rules::PAPERS.seal(&mut lent), Ok(()));
        assert_eq!(lent, sealed);
    }
    refused(Call::Open { last: 4_096 }, &sealed, 4);
    assert_eq!(Rules::PAPERS.open(Slot(2), &mut lent), Ok(()));
    assert_eq!(lent, table(3, 2, &[]));
}

#[test]
fn ten_and_eleven() {
    let lent = table(3, 0, &[(2, 0, 5, Some(0)), (4, 0, 5, Some(0))]);
    for ticket in [0, 1, 3, 5, u32::MAX] {
        refused(Call::Substitute { ticket }, &lent, 10);
    }
    refused(Call::Substitute { ticket: 4 }, &lent, 11);
    let mut same = lent.clone();
    assert_eq!(Rules::PAPERS.answer(Call::Substitute { ticket: 2 }, &mut same), 2 << 8);
}

#[test]
fn twelve_in_listing() {
    let lent = table(3, 3, &[(2, 0, 5, Some(0)), (4, 1, 5, None), (6, 0, 4, Some(0))]);
    let none = Entry {
        ticket: Ticket(9),
        due: Slot(9),
        weight: Weight(9),
    };
    let mut entries = [none; 3];
    assert_eq!(Rules::PAPERS.list(&lent, &mut entries[..1]), Err(Refusal::Short));
    assert_eq!(entries, [none; 3]);
    assert_eq!(Rules::PAPERS.list(&lent, &mut entries), Ok(2));
    let entry = |ticket, due| Entry {
        ticket: Ticket(ticket),
        due: Slot(due),
        weight: Weight(5),
    };
    assert_eq!(entries, [entry(2, 0), entry(4, 1), none]);
}

/// Opening judges only the length and the last slot.
#[test]
fn opening_reads_no_old_content() {
    for last in [0, 1, 256, 4_095] {
        let mut junk = vec![0xA7; row_at(3)];
        assert_eq!(Rules::PAPERS.open(Slot(last), &mut junk), Ok(()));
        assert_eq!(junk, table(3, last, &[]));
    }
    refused(Call::Open { last: 4_096 }, &[0xA7; row_at(1)], 4);
}

/// One table byte for byte, with values above 255 in every field.
#[test]
fn layout() {
    let row = (0x01_0203, 0x0405, 0x06_0708, None);
    let mut lent = table(2, 0x0908, &[row]);
    SLOT.put(&mut lent, 0x0102);
    let mut bytes = vec![
        0x02, 0x01, 0x08, 0x09, 0x04, 0x02, 0x01, 0, 1, 0, 0, 0, 0, 0, 0, 0,
    ];
    bytes.extend([0x03, 0x02, 0x01, 0, 0x05, 0x04, 0x08, 0x07, 0x06, 0, 1, 3]);
    bytes.resize(64, 0);
    assert_eq!(lent, bytes);
    let (due, weight) = (Slot(0x0907), Weight(0x0A_0B0C));
    let ticket = Rules::PAPERS.take_class(due, weight, Class(2), &mut lent);
    assert_eq!(ticket, Ok(Ticket(0x01_0204)));
    let mut after = vec![
        0x02, 0x01, 0x08, 0x09, 0x05, 0x02, 0x01, 0, 2, 0, 0, 0, 0, 0, 0, 0,
    ];
    after.extend(&bytes[16..40]);
    after.extend([0x04, 0x02, 0x01, 0, 0x07, 0x09, 0x0C, 0x0B, 0x0A, 0, 0, 2]);
    after.resize(64, 0);
    assert_eq!(lent, after);
}
