//! Document 01's rounds by hand, P1 to P10, with everything it says of them.

use second::call::Call;
use second::counts::{Slot, Ticket};
use second::hand::{calls, shown};
use second::listing::Entry;
use second::refusal::Refusal;
use second::rules::Rules;
use second::send::{Out, Step};
use second::table::{decode, row_at};

/// The table after a round's calls, none of them refused.
fn after(text: &str) -> Vec<u8> {
    let mut table = vec![0xEE; row_at(6)];
    for call in calls(text) {
        assert_eq!(Rules::PAPERS.answer(call, &mut table) & 0xFF, 0, "{text}: {call:?}");
    }
    table
}

fn send(table: &mut [u8]) -> Step {
    Rules::PAPERS.send(table).expect("a sending")
}

fn waits(table: &[u8]) -> String {
    shown(&decode(table))
}

fn mark(slot: u32, table: &[u8]) -> u32 {
    Rules::PAPERS.mark(Slot(slot), table).expect("a mark").0
}

fn frame(ticket: u32) -> Out {
    Out::Frame(Ticket(ticket))
}

/// The tickets of the plan's rows.
fn plan(table: &[u8]) -> Vec<u32> {
    let mut entries = [Entry::ZERO; 6];
    let count = Rules::PAPERS.list(table, &mut entries).expect("a plan");
    assert!(entries[count..].iter().all(|entry| *entry == Entry::ZERO));
    entries[..count]
        .iter()
        .map(|entry| entry.ticket.0)
        .collect()
}

#[test]
fn p1_ticket_1_goes_ordinary() {
    let mut table = after("1; 0:4 1:10");
    assert_eq!(send(&mut table), Step::Ordinary(frame(1)));
    assert_eq!(waits(&table), "1:10 (t2)");
}

#[test]
fn p2_leaves_a_kept_blank() {
    let mut table = after("1; 0:4 1:11");
    assert_eq!(send(&mut table), Step::Leap(frame(2)));
    assert_eq!(waits(&table), "kept 1:4 (t2)");
    assert_eq!(send(&mut table), Step::Ordinary(Out::KeptBlank(Ticket(2))));
}

#[test]
fn p3_nothing_waits_after() {
    let mut table = after("4; 0:1 4:9");
    let marks: Vec<u32> = (0..=4).map(|slot| mark(slot, &table)).collect();
    assert_eq!(marks, [1, 0, 0, 0, 0]);
    assert_eq!(send(&mut table), Step::Leap(frame(2)));
    assert_eq!(waits(&table), "");
}

#[test]
fn p4_one_is_shifted_and_one_raised() {
    let mut table = after("2; 0:4 1:10 2:5 2:3");
    assert_eq!((mark(1, &table), mark(2, &table)), (4, 4));
    assert_eq!(send(&mut table), Step::Leap(frame(2)));
    assert_eq!(waits(&table), "1:5 (t3) 2:4 (t4)");
    assert_eq!((mark(1, &table), mark(2, &table)), (5, 4));
}

#[test]
fn p5_among_equals_the_smaller_ticket() {
    let mut table = after("1; 1:5 1:5");
    assert_eq!(send(&mut table), Step::Ordinary(frame(1)));
}

#[test]
fn p6_and_p7_newcomers() {
    let total = |table: &[u8]| Rules::PAPERS.total(table).expect("a total");
    let alone = after("0; 0:5");
    let equal = after("0; 0:5 0:5");
    let heavier = after("0; 0:5 0:6");
    assert_eq!((plan(&alone), plan(&equal), plan(&heavier)), (vec![1], vec![1], vec![2]));
    assert_eq!(waits(&equal), "0:5 (t1) 0:5 (t2)");
    assert_eq!((total(&alone), total(&equal), total(&heavier)), (5, 5, 6));
}

#[test]
fn p8_and_p9_need_exact_numbers() {
    let mut above = after("1; 0:2178309 1:5702887");
    assert_eq!(send(&mut above), Step::Leap(frame(2)));
    let mut below = after("1; 0:3524578 1:9227465");
    assert_eq!(send(&mut below), Step::Ordinary(frame(1)));
}

#[test]
fn p10_silence_for_every_last_slot() {
    for last in 0..=4_095 {
        let mut table = vec![0xEE; row_at(1)];
        assert_eq!(Rules::PAPERS.open(Slot(last), &mut table), Ok(()));
        assert_eq!(send(&mut table), Step::Ordinary(Out::Silence));
        assert_eq!(waits(&table), "");
    }
}

#[test]
fn limits() {
    let mut table = after("4095;");
    let take = |weight| Call::Take { due: 0, weight };
    assert_eq!(Rules::PAPERS.answer(take(16_777_217), &mut table), 6);
    assert_eq!(Rules::PAPERS.answer(take(16_777_216), &mut table), 1 << 8);
    assert_eq!(Rules::PAPERS.open(Slot(4_096), &mut table), Err(Refusal::LastTooLate));
}
