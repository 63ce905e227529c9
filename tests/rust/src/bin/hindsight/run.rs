//! The check of all rounds, and the faults it must notice.

use crate::seen::All;
use second::compare::library::Library;
use second::ending::{caught, Ended};
use second::hindsight::check::{check, Checked};
use second::hindsight::fault::FAULTS;
use second::hindsight::kinds::rounds;
use second::hindsight::recorded::{self, Recorded};
use second::hindsight::script::Script;
use second::settings::{factor, seed};

pub fn compare(library: &dyn Library) -> Ended {
    let mut all = All::new();
    let seed = seed()?;
    for round in rounds(seed, factor()?) {
        let found = check(library, &round.script);
        let place = format!("{} {}, seed {seed}", round.kind, round.number);
        let found = found.map_err(|wrong| difference(library, &round.script, &place, &wrong))?;
        all.add(round.kind, &found);
    }
    for one in recorded::all()? {
        all.add("recorded", &replayed(library, &one)?);
    }
    all.ended()
}

/// The round as the library plays it, and what is wrong.
fn difference(library: &dyn Library, script: &Script, place: &str, wrong: &str) -> String {
    format!("{}hindsight: {place}: {wrong}", script.told(library))
}

/// A recorded round must come to what is recorded.
fn replayed(library: &dyn Library, one: &Recorded) -> Result<Checked, String> {
    let script = one.round.script();
    let found = check(library, &script);
    let found = found.and_then(|found| match found.gain == one.gain {
        true => Ok(found),
        false => Err(format!("it comes to {}", found.gain)),
    });
    let place = format!("recorded {one}");
    found.map_err(|wrong| difference(library, &script, &place, &wrong))
}

/// Every fault must be seen on some drawn round.
pub fn mutations(library: &dyn Library) -> Ended {
    let (seed, factor) = (seed()?, factor()?);
    caught("hindsight", FAULTS, |fault| {
        let shown = fault.shown(library);
        let mut drawn = rounds(seed, factor).filter(|round| round.is_drawn);
        drawn.find_map(|round| {
            let wrong = shown(&round.script)?;
            Some(format!("{} {}: {wrong}", round.kind, round.number))
        })
    })
}
