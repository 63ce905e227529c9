//! The words after the command, and the two settings of the environment.

use crate::archive;
use second::compare::kinds::Settings;
use second::compare::library::Library;
use second::faults::Fault;
use second::rules::Rules;
use second::settings;
use std::env;

const USAGE: &str = "compare [--self] [--mutation NAME | --mutations]
LIRVEDD_FACTOR: how many times as long (1); LIRVEDD_SEED: the drawn numbers' seed (1)";

pub enum Job {
    Compare(Box<Rules>),
    Mutations,
}

pub struct Options {
    pub job: Job,
    /// What is compared, and its name.
    pub library: Box<dyn Library>,
    pub name: &'static str,
    pub settings: Settings,
}

impl Options {
    pub fn read() -> Result<Options, String> {
        let (mut job, mut itself) = (Job::Compare(Box::new(Rules::PAPERS.clone())), false);
        let mut words = env::args().skip(1);
        while let Some(word) = words.next() {
            match word.as_str() {
                "--self" => itself = true,
                "--mutations" => job = Job::Mutations,
                "--mutation" => job = Job::Compare(Box::new(named(words.next())?)),
                _ => return Err(USAGE.to_string()),
            }
        }
        let (library, name) = library(itself)?;
        let settings = Settings {
            seed: settings::seed()?,
            factor: settings::factor()?,
            drawn_only: false,
        };
        Ok(Options {
            job,
            library,
            name,
            settings,
        })
    }
}

fn named(word: Option<String>) -> Result<Rules, String> {
    let name = word.ok_or(USAGE)?;
    let fault = Fault::named(&name).ok_or(format!("no mutation {name}"))?;
    Ok(fault.rules())
}

/// The archive, or the second implementation itself only where that is asked for.
fn library(itself: bool) -> Result<(Box<dyn Library>, &'static str), String> {
    if itself {
        return Ok((Box::new(Rules::PAPERS.clone()), "itself"));
    }
    let linked = archive::linked();
    let archive = linked.ok_or("no archive is linked: set LIRVEDD_ARCHIVE, or use --self")?;
    Ok((archive, "the archive"))
}
