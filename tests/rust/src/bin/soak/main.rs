//! The long run: pass after pass of every kind of input, each with a seed of
//! its own, the archive against the second implementation.

#[path = "../compare/archive.rs"]
mod archive;
mod counted;

use counted::{Counted, Counts};
use second::compare::kinds::{run_kinds, Case, Found, Settings, FULLEST, KINDS};
use second::kind::Kind;
use second::rules::Rules;
use std::cell::RefCell;
use std::env;
use std::process::ExitCode;
use std::time::Instant;

const USAGE: &str = "soak [--minutes N] [--seed S] [--factor F]
N minutes, to the end of the pass (1); the first pass's seed (1), the next ones follow; F: how long a pass is (1)";

struct Options {
    minutes: f64,
    seed: u64,
    factor: f64,
}

impl Options {
    fn read() -> Option<Options> {
        let mut options = Options {
            minutes: 1.0,
            seed: 1,
            factor: 1.0,
        };
        let mut words = env::args().skip(1);
        while let Some(word) = words.next() {
            let value = words.next()?;
            match word.as_str() {
                "--minutes" => options.minutes = value.parse().ok()?,
                "--seed" => options.seed = value.parse().ok()?,
                "--factor" => options.factor = value.parse().ok()?,
                _ => return None,
            }
        }
        Some(options)
    }
}

fn main() -> ExitCode {
    let Some(options) = Options::read() else {
        eprintln!("{USAGE}");
        return ExitCode::from(2);
    };
    let Some(library) = archive::linked() else {
        eprintln!("soak: no archive is linked: set LIRVEDD_ARCHIVE");
        return ExitCode::from(2);
    };
    let counts = RefCell::new(Counts::default());
    let counted = Counted {
        library,
        counts: &counts,
    };
    let ended = soak(&options, counted);
    let counts = counts.borrow();
    counts.show();
    if let Err((seed, found)) = ended {
        let (kind, case) = (found.kind, found.case);
        println!("{}", found.difference);
        println!("soak: a difference in kind {kind}, case {case}, seed {seed}");
        return ExitCode::FAILURE;
    }
    println!("soak: {} calls agreed", counts.outcomes.all());
    ExitCode::SUCCESS
}

/// Passes until the time is up. The kinds that are not drawn run in the first.
fn soak(options: &Options, library: Counted) -> Result<(), (u64, Found)> {
    let began = Instant::now();
    for pass in 0.. {
        let settings = Settings {
            seed: options.seed + pass,
            factor: options.factor,
            drawn_only: pass > 0,
        };
        for kinds in [KINDS, FULLEST] {
            run_pass(kinds, settings, &library).map_err(|found| (settings.seed, found))?;
        }
        let minutes = began.elapsed().as_secs_f64() / 60.0;
        let counts = library.counts.borrow();
        println!(
            "seed {}: {} calls so far, {} on 128 rows or more, {} sendings at 1,024 rows and 4,096 slots; {minutes:.1} minutes",
            settings.seed, counts.outcomes.all(), counts.large(), counts.fullest,
        );
        if minutes >= options.minutes {
            break;
        }
    }
    Ok(())
}

fn run_pass(kinds: &[Kind<Case>], settings: Settings, library: &Counted) -> Result<(), Found> {
    let counts = library.counts;
    run_kinds(kinds, library, Rules::PAPERS, settings, |kind, _| {
        counts.borrow_mut().end_of(kind.name);
    })?;
    Ok(())
}
