//! The kinds of input, and a run through all of them.

use crate::compare::bench::{Agreed, Bench, Difference};
use crate::compare::draw::Draw;
use crate::compare::library::Library;
use crate::compare::tally::Tally;
use crate::compare::{
    bytes, damage, extremes, fullest, hands, large, lengths, lists, sealed, sound, ties, unused,
};
use crate::kind::Kind;
use crate::rules::Rules;

/// Asks all of one case.
pub type Case = fn(&mut Bench, &mut Draw, u64) -> Agreed<()>;

pub const KINDS: &[Kind<Case>] = &[
    Kind::fixed("hand", hands::CASES, hands::run),
    Kind::fixed("lengths", lengths::CASES, lengths::run),
    Kind::fixed("extremes", extremes::CASES, extremes::run),
    Kind::fixed("bytes", bytes::CASES, bytes::run),
    Kind::drawn("damaged", 120_000, damage::run),
    Kind::drawn("sound", 120_000, sound::run),
    Kind::drawn("lists", 4_000, lists::run),
    Kind::drawn("large", 200, large::run),
    Kind::fixed("unused", unused::CASES, unused::run),
    Kind::drawn("sealed", 6_000, sealed::run),
    Kind::drawn("classes", 8_000, ties::run),
];

/// What the long run has beside them.
pub const FULLEST: &[Kind<Case>] = &[Kind::drawn("fullest", 10, fullest::run)];

/// What a run is told.
#[derive(Clone, Copy)]
pub struct Settings {
    pub seed: u64,
    pub factor: f64,
    /// Leave out the kinds that are not drawn.
    pub drawn_only: bool,
}

/// A difference, and where it was met.
pub struct Found {
    pub kind: &'static str,
    pub case: u64,
    pub difference: Box<Difference>,
}

/// Runs every kind, telling the agreed calls of each, up to a difference.
pub fn run(
    library: &dyn Library,
    second: &Rules,
    settings: Settings,
    tell: impl FnMut(&Kind<Case>, u64),
) -> Result<Tally, Found> {
    run_kinds(KINDS, library, second, settings, tell)
}

/// The same for the kinds given.
pub fn run_kinds(
    kinds: &[Kind<Case>],
    library: &dyn Library,
    second: &Rules,
    settings: Settings,
    mut tell: impl FnMut(&Kind<Case>, u64),
) -> Result<Tally, Found> {
    let mut bench = Bench::new(library, second);
    let places = kinds.iter().enumerate();
    for (place, kind) in places.filter(|(_, kind)| kind.is_drawn || !settings.drawn_only) {
        let before = bench.agreed;
        for (case, mut draw) in kind.draws(place, settings.seed, settings.factor) {
            let ended = (kind.case)(&mut bench, &mut draw, case);
            ended.map_err(|difference| Found {
                kind: kind.name,
                case,
                difference,
            })?;
        }
        tell(kind, bench.agreed - before);
    }
    Ok(bench.tally)
}
