//! Plays rounds through the library's archive and checks what hindsight could
//! have gained.

#[path = "../compare/archive.rs"]
mod archive;
mod run;
mod seen;

use second::compare::library::Library;
use second::ending::{told, Ended};
use second::faults::Fault;
use second::hindsight::family::longest;
use second::hindsight::recorded;
use second::hindsight::search::{played, search};
use second::rules::Rules;
use second::settings::seed;
use std::env;
use std::process::ExitCode;
use std::time::Duration;

const USAGE: &str = "hindsight [--self | --mutation NAME] [--mutations | --search [SECONDS]]
--self, --mutation: the second implementation, with that fault, in the archive's place
LIRVEDD_FACTOR: how many times as many (1); LIRVEDD_SEED: the drawn numbers' seed (1)";

fn main() -> ExitCode {
    let words: Vec<String> = env::args().skip(1).collect();
    let words: Vec<&str> = words.iter().map(String::as_str).collect();
    match library(&words).and_then(|(library, words)| job(words, library.as_ref())) {
        Ok(ended) => told(ended),
        Err(said) => {
            eprintln!("{said}");
            ExitCode::from(2)
        }
    }
}

/// What is played, and the words that are left.
fn library<'a>(words: &'a [&'a str]) -> Result<(Box<dyn Library>, &'a [&'a str]), String> {
    let (second, words) = match words {
        ["--self", rest @ ..] => (Rules::PAPERS.clone(), rest),
        ["--mutation", name, rest @ ..] => {
            let fault = Fault::named(name).ok_or(format!("no mutation {name}"))?;
            (fault.rules(), rest)
        }
        _ => {
            let linked = archive::linked();
            let told = "no archive is linked: set LIRVEDD_ARCHIVE, or use --self";
            return Ok((linked.ok_or(told)?, words));
        }
    };
    Ok((Box::new(second), words))
}

fn job(words: &[&str], library: &dyn Library) -> Result<Ended, String> {
    match words {
        [] => Ok(run::compare(library)),
        ["--mutations"] => Ok(run::mutations(library)),
        ["--search"] => Ok(searched(library, 60)),
        ["--search", seconds] => {
            let seconds = seconds.parse().map_err(|_| USAGE)?;
            Ok(searched(library, seconds))
        }
        _ => Err(USAGE.to_string()),
    }
}

/// The best round found for each number of slots and the longest of the
/// family, each as a line that is read back.
fn searched(library: &dyn Library, seconds: u64) -> Ended {
    let time = Duration::from_secs(seconds);
    let mut best = search(library, recorded::all()?, seed()?, time)?;
    best.push(played(library, longest())?);
    best.iter().for_each(|one| println!("{one}"));
    Ok(format!("hindsight: searched for {seconds} seconds"))
}
