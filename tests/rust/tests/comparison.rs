//! The comparison itself: it agrees where it should, meets every outcome, and
//! notices faults.

use second::call::{Call, CallName};
use second::compare::kinds::{run, Found, Settings};
use second::compare::library::Library;
use second::compare::tally::{Outcome, Tally};
use second::compare::ties::PARTS;
use second::faults::Fault;
use second::rules::Rules;
use second::table::{row_at, row_mut, CLASS, USED, WEIGHT};

const SHORT: Settings = Settings {
    seed: 3,
    factor: 0.02,
    drawn_only: false,
};

fn compared(library: &dyn Library, second: &Rules) -> Result<Tally, Found> {
    run(library, second, SHORT, |_, _| ())
}

#[test]
fn meets_every_outcome() {
    let Ok(tally) = compared(Rules::PAPERS, Rules::PAPERS) else {
        panic!("it differs from itself");
    };
    let refusals: [(CallName, &[u8]); 8] = [
        (CallName::Open, &[2, 4]),
        (CallName::Take, &[2, 3, 5, 6, 7, 8, 9, 13]),
        (CallName::TakeClass, &[2, 3, 5, 6, 7, 8, 9, 13, 14]),
        (CallName::Send, &[2, 3, 5]),
        (CallName::Seal, &[2, 3, 5]),
        (CallName::Mark, &[2, 3, 5, 7]),
        (CallName::Total, &[2, 3, 5]),
        (CallName::Substitute, &[2, 3, 5, 10, 11]),
    ];
    for (call, numbers) in refusals {
        for number in 1..=14 {
            let met = tally.met(call, Outcome::Refused(number)) > 0;
            assert_eq!(met, numbers.contains(&number), "{call:?} {number}");
        }
        let accepted = tally.met(call, Outcome::Accepted) > 0;
        assert_eq!(accepted, call != CallName::Send, "{call:?}");
    }
    for (what, leap) in [(0, false), (1, false), (1, true), (2, false), (2, true)] {
        assert!(tally.met(CallName::Send, Outcome::Sent(what, leap)) > 9);
    }
    assert_eq!(tally.met(CallName::Send, Outcome::Sent(0, true)), 0);
    for what in 0..=2 {
        assert!(tally.met(CallName::Send, Outcome::SentSealed(what, false)) > 9);
        assert_eq!(tally.met(CallName::Send, Outcome::SentSealed(what, true)), 0);
    }
    assert!(tally.met(CallName::Substitute, Outcome::Blank) > 9);
    for (part, _) in PARTS {
        assert!(tally.decided(part) > 3, "{part}");
    }
}

#[test]
fn catches_every_mutation() {
    for fault in Fault::shown(CallName::ALL) {
        let ended = compared(Rules::PAPERS, &fault.rules());
        assert!(ended.is_err(), "{}", fault.name);
    }
}

/// Every fault can be asked for by its name.
#[test]
fn names_differ() {
    let mut names: Vec<&str> = Fault::all().map(|fault| fault.name).collect();
    names.sort_unstable();
    names.dedup();
    assert_eq!(names.len(), Fault::all().count());
}

/// What a wrong library by hand does to the table and the reply.
type Change = fn(Call, &mut [u8], u64) -> u64;

struct Wrong(Change);

impl Library for Wrong {
    fn ask(&self, call: Call, table: &mut [u8]) -> u64 {
        let reply = Rules::PAPERS.answer(call, table);
        (self.0)(call, table, reply)
    }
}

#[test]
fn catches_wrong_libraries() {
    let unchanged = Wrong(|_, _, reply| reply);
    assert!(compared(&unchanged, Rules::PAPERS).is_ok());
    let wrong: [Change; 6] = [
        // Turns every call down.
        |_, _, _| 3,
        // Always silent.
        |call, _, reply| {
            if call == Call::Send && reply & 0xFF == 0 {
                0
            } else {
                reply
            }
        },
        // Never tells a leap.
        |_, _, reply| reply & !(1 << 34),
        // Writes on a refusal.
        |_, table, reply| {
            if reply == 9 {
                table[row_at(1) - 1] = 1;
            }
            reply
        },
        // Loses the class of each frame taken.
        |call, table, reply| {
            if matches!(call, Call::TakeClass { .. }) && reply & 0xFF == 0 {
                let used = USED.get(table) as usize;
                CLASS.put(row_mut(table, used - 1), 0);
            }
            reply
        },
        // Loses the weight's high byte in the first row.
        |call, table, reply| {
            if matches!(call, Call::Take { .. }) && reply == 1 << 8 {
                table[row_at(0) + WEIGHT.end() - 1] = 0;
            }
            reply
        },
    ];
    for (place, change) in wrong.into_iter().enumerate() {
        assert!(compared(&Wrong(change), Rules::PAPERS).is_err(), "{place}");
    }
}
