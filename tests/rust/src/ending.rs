//! How a comparison ends: its last line, or what differs.

use crate::settings::factor;
use std::env;
use std::path::Path;
use std::process::ExitCode;

/// The last line of a comparison that agreed, or the difference.
pub type Ended = Result<String, String>;

/// Tells it, and gives the exit status.
pub fn told(ended: Ended) -> ExitCode {
    match ended {
        Ok(line) => {
            println!("{line}");
            ExitCode::SUCCESS
        }
        Err(difference) => {
            println!("{difference}");
            ExitCode::FAILURE
        }
    }
}

/// A fault, by what it does.
pub trait Named {
    fn says(&self) -> String;
}

/// Every fault must be caught; one line each. The place tells where it is.
pub fn caught<T: Named>(name: &str, all: &[T], place: impl Fn(&T) -> Option<String>) -> Ended {
    let mut caught = 0;
    for fault in all {
        let found = place(fault);
        match &found {
            Some(place) => println!("caught ({place}): {}", fault.says()),
            None => println!("NOT CAUGHT: {}", fault.says()),
        }
        caught += usize::from(found.is_some());
    }
    let line = format!("{name}: {caught} of {} faults caught", all.len());
    match caught == all.len() {
        true => Ok(line),
        false => Err(line),
    }
}

/// Whether something was met often enough; a factor below 1 asks for less.
pub fn enough(name: &str, what: &str, met: usize, least: usize) -> Result<(), String> {
    println!("  {what}: {met} times");
    if (met as f64) < least as f64 * factor()?.min(1.0) {
        return Err(format!("{name}: {what}: fewer than {least} times"));
    }
    Ok(())
}

/// A comparison with the program named: NAME PROGRAM [--mutations].
pub fn with_program(
    name: &str,
    compare: fn(&Path) -> Ended,
    mutations: fn(&Path) -> Ended,
) -> ExitCode {
    let words: Vec<String> = env::args().skip(1).collect();
    let words: Vec<&str> = words.iter().map(String::as_str).collect();
    match words[..] {
        [program] => told(compare(Path::new(program))),
        [program, "--mutations"] => told(mutations(Path::new(program))),
        _ => {
            eprintln!("{name} PROGRAM [--mutations]");
            eprintln!("LIRVEDD_FACTOR: how many times as many (1); LIRVEDD_SEED: the drawn numbers' seed (1)");
            ExitCode::from(2)
        }
    }
}
