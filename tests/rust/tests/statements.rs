//! The further rounds by hand: after the calls, the last step and the rows
//! that wait; for the first of them the plan and its substitutes.

use second::call::Call;
use second::counts::Ticket;
use second::hand::{
    calls, shown, table, HandRow, BLANK_FIRST, BLANK_GOES, BLANK_LIGHTEST, FRAME_FIRST, LEAPING,
    SHIFTED, THREE_SHIFTS,
};
use second::listing::Entry;
use second::questions::Substitute;
use second::rules::Rules;
use second::send::{Out, Step};
use second::table::{decode, row_at};

/// Plays a round by hand on a fresh table: each sending with the rows after it.
fn play(text: &str) -> (Vec<u8>, Vec<(Step, String)>) {
    let mut table = vec![0; row_at(12)];
    let mut sendings = Vec::new();
    for call in calls(text) {
        match call {
            Call::Send => {
                let step = Rules::PAPERS.send(&mut table).expect("a sending");
                let round = decode(&table);
                sendings.push((step, shown(&round)));
            }
            _ => assert_eq!(Rules::PAPERS.answer(call, &mut table) & 0xFF, 0),
        }
    }
    (table, sendings)
}

fn leap(ticket: u32) -> Step {
    Step::Leap(Out::Frame(Ticket(ticket)))
}

fn ordinary(ticket: u32) -> Step {
    Step::Ordinary(Out::Frame(Ticket(ticket)))
}

/// A round whose only sending gives this step and leaves these rows.
fn one(text: &str, step: Step, rows: &str) {
    let (_, sendings) = play(&format!("{text} S"));
    assert_eq!(sendings, [(step, rows.to_string())], "{text}");
}

#[test]
fn plan_and_substitutes_of_the_first() {
    let text = "4; 4:2 1:1 4:20 3:9 0:9 2:2 1:2 3:4";
    let (table, _) = play(text);
    let mut entries = [Entry::ZERO; 8];
    assert_eq!(Rules::PAPERS.list(&table, &mut entries), Ok(5));
    let listed: Vec<u32> = entries[..5].iter().map(|entry| entry.ticket.0).collect();
    assert_eq!(listed, [5, 7, 4, 8, 3]);
    for (ticket, substitute) in [(3, 1), (4, 6), (5, 5), (7, 6), (8, 6)] {
        let found = Rules::PAPERS.substitute(Ticket(ticket), &table);
        assert_eq!(found, Ok(Substitute::Ticket(Ticket(substitute))), "ticket {ticket}");
    }
    let rows = "4:2 (t1) 1:1 (t2) 4:20 (t3) 3:9 (t4) 2:2 (t6) 1:2 (t7) 3:4 (t8)";
    one(text, ordinary(5), rows);
}

#[test]
fn a_sending_between_takings() {
    let (_, sendings) = play("3; 3:20 0:5 2:5 3:9 S 2:1 S");
    let first = "kept 1:5 (t1) 2:5 (t3) 3:9 (t4)".to_string();
    let second = "2:5 (t3) 3:9 (t4) 2:1 (t5)".to_string();
    let blank = Step::Ordinary(Out::KeptBlank(Ticket(1)));
    assert_eq!(sendings, [(leap(1), first), (blank, second)]);
    let (_, sendings) = play("3; 2:3 1:3 3:20 2:5 2:2 S 2:3 3:20 S");
    assert_eq!(sendings[0].0, leap(3));
    assert!(sendings[0].1.contains("kept 3:3 (t3)"));
    let rows = "2:3 (t1) kept 3:3 (t3) 2:5 (t4) 2:2 (t5) 2:3 (t6)".to_string();
    assert_eq!(sendings[1], (leap(7), rows));
}

#[test]
fn shifts_and_raises() {
    one("4; 0:3 4:3 2:2 3:5 1:9 4:5", leap(5), "4:3 (t2) 2:3 (t3) 1:5 (t4) 4:5 (t6)");
    one("4; 3:2 2:2 0:4 1:20 3:1 0:5 0:1", leap(4), "2:2 (t1) 1:5 (t2) 3:2 (t5)");
    one("3; 1:20 2:5 3:3 0:9 3:20 2:1", leap(1), "2:5 (t2) 3:5 (t3) 1:20 (t5) 2:1 (t6)");
    let heavy = "2:20 (t2) 1:4 (t3) 1:4 (t4) 4:2 (t5) 4:4 (t6) 4:20 (t7)";
    one("4; 0:3 4:20 1:4 1:4 4:2 4:3 4:20 2:20", leap(8), heavy);
    one("3; 0:8 1:40 2:5 3:4 3:3", leap(2), "1:8 (t3) 2:5 (t4) 3:4 (t5)");
}

#[test]
fn equals_and_idle_slots() {
    let (table, _) = play("3; 3:9 3:9 3:9 2:9");
    for ticket in 1..=4 {
        let found = Rules::PAPERS.substitute(Ticket(ticket), &table);
        assert_eq!(found, Ok(Substitute::Ticket(Ticket(3))), "ticket {ticket}");
    }
    one("3; 3:9 3:9 3:9 2:9", ordinary(4), "3:9 (t1) 3:9 (t2) 3:9 (t3)");
    assert_eq!(play("3; 1:11 3:20 1:2 S").1[0].0, leap(2));
    assert_eq!(play("3; 3:9 3:5 S").1[0].0, leap(1));
}

/// Sound tables that no list of calls reaches: kept blanks anywhere.
#[test]
fn kept_blanks_anywhere() {
    leaves(2, SHIFTED, leap(2), "kept 1:9 (t3) 2:4 (t4)");
    leaves(1, LEAPING, Step::Leap(kept(2)), "kept 1:4 (t2)");
    leaves(1, BLANK_GOES, Step::Ordinary(kept(1)), "1:5/3 (t2)");
    let shifted = "1:5 (t3) kept 2:4 (t4) 3:3 (t5) 4:2 (t6)";
    leaves(4, THREE_SHIFTS, leap(2), shifted);
    leaves(1, FRAME_FIRST, ordinary(1), "kept 1:5 (t2) 1:5 (t3)");
    let frame = "1:5/3 (t2) kept 1:5 (t3)";
    leaves(1, BLANK_FIRST, Step::Ordinary(kept(1)), frame);
    let rest = "kept 1:3 (t2) 3:8 (t3) 3:7 (t4)";
    leaves(3, BLANK_LIGHTEST, ordinary(1), rest);
}

/// The same tables sealed: the canonical first of the plan goes, and no other
/// row changes.
#[test]
fn sealed_tables() {
    sealed(2, SHIFTED, ordinary(1), "1:20 (t2) kept 2:9 (t3) 2:2 (t4)");
    sealed(1, LEAPING, ordinary(1), "kept 1:11 (t2)");
    sealed(1, BLANK_GOES, Step::Ordinary(kept(1)), "1:5/3 (t2)");
    sealed(1, FRAME_FIRST, ordinary(1), "kept 1:5 (t2) 1:5 (t3)");
    sealed(1, BLANK_FIRST, Step::Ordinary(kept(1)), "1:5/3 (t2) kept 1:5 (t3)");
    let rest = "kept 1:3 (t2) 3:8 (t3) 3:7 (t4)";
    sealed(3, BLANK_LIGHTEST, ordinary(1), rest);
}

/// What a table's sending gives once it is sealed, and the rows that it leaves.
fn sealed(last: u32, rows: &[HandRow], step: Step, left: &str) {
    let mut lent = table(rows.len(), last, rows);
    assert_eq!(Rules::PAPERS.seal(&mut lent), Ok(()));
    assert_eq!(Rules::PAPERS.send(&mut lent), Ok(step));
    let round = decode(&lent);
    assert_eq!((shown(&round).as_str(), round.sealed), (left, true));
}

/// Rounds sealed midway, each sending with the rows after it.
#[test]
fn sealed_rounds() {
    let silence = Step::Ordinary(Out::Silence);
    let shown = |text: &str| -> Vec<(Step, String)> { play(text).1 };
    let steps = |text: &str| -> Vec<Step> { shown(text).into_iter().map(|one| one.0).collect() };
    assert_eq!(
        shown("1; 0:4 1:11 seal S S"),
        [
            (ordinary(1), "1:11 (t2)".to_string()),
            (ordinary(2), String::new())
        ]
    );
    let waits = "1:5 (t1) 2:7 (t2)".to_string();
    assert_eq!(shown("2; 1:5 2:7 seal seal S S S")[0], (silence, waits));
    assert_eq!(steps("2; 1:5 2:7 seal S S S"), [silence, ordinary(1), ordinary(2)]);
    let blank = Step::Ordinary(kept(1));
    let kept_first = [leap(1), blank, ordinary(3), ordinary(4)];
    assert_eq!(steps("3; 3:20 0:5 2:5 3:9 S seal S S S"), kept_first);
    assert_eq!(steps("1; 0:4 1:5 1:6 seal S S"), [ordinary(3), ordinary(2)]);
    let equals = [ordinary(4), ordinary(1), ordinary(2), ordinary(3)];
    assert_eq!(steps("3; 3:9 3:9 3:9 2:9 seal S S S S"), equals);
    let heavier = [ordinary(2), ordinary(3), ordinary(1), ordinary(4)];
    assert_eq!(steps("3; 2:1 2:7 2:3 3:8 seal S S S S"), heavier);
    let between = [ordinary(1), silence, silence, ordinary(2), ordinary(3)];
    assert_eq!(steps("4; 0:3 3:2 4:9 seal S S S S S"), between);
    assert_eq!(steps("1; seal O1 0:4 1:11 S"), [leap(2)]);
}

/// What a table's sending gives, and the rows that it leaves.
fn leaves(last: u32, rows: &[HandRow], step: Step, left: &str) {
    let mut lent = table(rows.len(), last, rows);
    assert_eq!(Rules::PAPERS.send(&mut lent), Ok(step));
    assert_eq!(shown(&decode(&lent)), left);
}

fn kept(ticket: u32) -> Out {
    Out::KeptBlank(Ticket(ticket))
}

/// No shift within p's own segment; a kept blank counts in the total; of
/// substitutes that tie the smaller ticket.
#[test]
fn segments_totals_and_ties() {
    one("4; 3:1 2:3 3:3", leap(2), "3:1 (t1) 3:3 (t3)");
    for (text, total) in [("", 4), (" 1:3", 4), (" 1:3 1:6", 6)] {
        let (lent, _) = play(&format!("1; 0:4 1:11 S{text}"));
        assert_eq!(Rules::PAPERS.total(&lent), Ok(total), "{text}");
    }
    let (lent, _) = play("3; 0:9 3:4 3:4 3:9 2:9 1:9");
    for ticket in [4, 5, 6] {
        let found = Rules::PAPERS.substitute(Ticket(ticket), &lent);
        assert_eq!(found, Ok(Substitute::Ticket(Ticket(2))), "ticket {ticket}");
    }
}
