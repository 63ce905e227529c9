//! The tuned planner against the second implementation: each reply and each byte, over its drawn tables and lists.

use second::call::Call;
use second::compare::kinds::{run, Settings};
use second::compare::library::Library;
use second::rules::Rules;
use second::settings;
use tuned::calls;

struct Tuned;

impl Library for Tuned {
    fn ask(&self, call: Call, table: &mut [u8]) -> u64 {
        match call {
            Call::Open { last } => calls::open(last, table),
            Call::Take { due, weight } => calls::take(due, weight, table),
            Call::TakeClass { due, weight, class } => calls::take_class(due, weight, class, table),
            Call::Send => calls::send(table),
            Call::Seal => calls::seal(table),
            Call::Mark { slot } => calls::mark(slot, table),
            Call::Total => calls::total(table),
            Call::Substitute { ticket } => calls::substitute(ticket, table),
        }
    }
}

#[test]
fn agrees_with_the_second_implementation() {
    let settings = Settings {
        seed: settings::seed().expect("a seed"),
        factor: settings::factor_or(0.1).expect("a factor"),
        drawn_only: false,
    };
    let mut calls = 0;
    let ended = run(&Tuned, Rules::PAPERS, settings, |kind, agreed| {
        println!("{}: {agreed} calls", kind.name);
        calls += agreed;
    });
    if let Err(found) = ended {
        panic!("{} case {}: {}", found.kind, found.case, found.difference);
    }
    assert!(calls > 100_000, "only {calls} calls");
}
