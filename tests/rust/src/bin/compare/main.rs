//! Compares the library's archive with the second implementation.

mod archive;
mod options;

use options::{Job, Options};
use second::call::CallName;
use second::compare::kinds::{run, Settings};
use second::compare::tally::{Outcome, Tally};
use second::ending::{caught, enough, told, Ended};
use second::faults::Fault;
use second::rules::Rules;
use std::process::ExitCode;

fn main() -> ExitCode {
    let options = match Options::read() {
        Ok(options) => options,
        Err(told) => {
            eprintln!("{told}");
            return ExitCode::from(2);
        }
    };
    told(match &options.job {
        Job::Compare(second) => compare(&options, second),
        Job::Mutations => {
            caught("compare", &Fault::shown(CallName::ALL), |fault| caught_at(&options, fault))
        }
    })
}

fn compare(options: &Options, second: &Rules) -> Ended {
    let (library, settings) = (options.library.as_ref(), options.settings);
    println!("compare: with {}, seed {}, factor {}", options.name, settings.seed, settings.factor);
    let ended = run(library, second, settings, |kind, agreed| {
        println!("  {}: {agreed} cases", kind.name);
    });
    match ended {
        Ok(tally) => {
            tally.lines().iter().for_each(|line| println!("  {line}"));
            least(&tally)?;
            Ok(format!("compare: {} cases agreed", tally.all()))
        }
        Err(found) => Err(format!(
            "{}\ncompare: a difference in kind {}, case {}, seed {}",
            found.difference, found.kind, found.case, settings.seed
        )),
    }
}

/// How often at least sealing, and what it does to others, and classes were met.
const LEAST: &[(CallName, Outcome, usize)] = &[
    (CallName::Seal, Outcome::Accepted, 100_000),
    (CallName::Seal, Outcome::Refused(2), 500),
    (CallName::Seal, Outcome::Refused(3), 100_000),
    (CallName::Seal, Outcome::Refused(5), 15_000),
    (CallName::Take, Outcome::Accepted, 40_000),
    (CallName::Take, Outcome::Refused(13), 70_000),
    (CallName::TakeClass, Outcome::Accepted, 200_000),
    (CallName::TakeClass, Outcome::Refused(2), 5_000),
    (CallName::TakeClass, Outcome::Refused(3), 100_000),
    (CallName::TakeClass, Outcome::Refused(13), 300_000),
    (CallName::TakeClass, Outcome::Refused(14), 20_000),
    (CallName::Send, Outcome::SentSealed(0, false), 30_000),
    (CallName::Send, Outcome::SentSealed(1, false), 20_000),
    (CallName::Send, Outcome::SentSealed(2, false), 3_000),
];

/// How often at least the class decided each of these, in tables of equals.
const DECIDED: &[(&str, usize)] = &[
    ("plan", 4_000),
    ("pick", 1_500),
    ("lightest of the first segment", 2_500),
    ("substitute outside the plan", 1_000),
    ("shift", 500),
    ("sealed first", 500),
    ("listing", 5_000),
];

fn least(tally: &Tally) -> Result<(), String> {
    for (call, outcome, least) in LEAST {
        let met = tally.met(*call, *outcome) as usize;
        enough("compare", &format!("{call:?} {outcome:?}"), met, *least)?;
    }
    for (part, least) in DECIDED {
        let met = tally.decided(part) as usize;
        enough("compare", &format!("the class decided the {part}"), met, *least)?;
    }
    Ok(())
}

/// Where a fault is caught. A fault in planning must be caught by the drawn
/// inputs alone too.
fn caught_at(options: &Options, fault: &Fault) -> Option<String> {
    let (library, name) = (options.library.as_ref(), options.name);
    let second = fault.rules();
    let place = |drawn_only| {
        let settings = Settings {
            drawn_only,
            ..options.settings
        };
        let ended = run(library, &second, settings, |_, _| ());
        ended
            .err()
            .map(|found| format!("{} {}", found.kind, found.case))
    };
    let first = place(false)?;
    if fault.shown_by.plans() {
        return Some(format!("with {name}; {first}, drawn {}", place(true)?));
    }
    Some(format!("with {name}; {first}"))
}
