//! Compares trial with the second implementation, byte for byte, on drawn
//! requests: trials PROGRAM [--mutations].

use second::call::CallName;
use second::ending::{caught, enough, with_program, Ended};
use second::faults::{self, Fault};
use second::kind::counted;
use second::programs::process::{ended_well, run, Watch};
use second::programs::requests::KINDS;
use second::programs::trial::Request;
use second::rules::Rules;
use second::settings::{factor, seed};
use std::path::Path;
use std::process::ExitCode;

/// The calls that trial makes.
const SHOWN_BY: &[CallName] = &[
    CallName::List,
    CallName::Read,
    CallName::Payload,
    CallName::Write,
];

/// A request, and the outcome that the program printed for it.
struct Tried {
    kind: &'static str,
    number: u64,
    request: Request,
    outcome: Vec<u8>,
}

/// How often at least each outcome was met: the request's first byte, and the
/// refusal.
const LEAST: &[(u8, u8, usize)] = &[
    (0, 0, 1_500),
    (0, 2, 100),
    (0, 3, 700),
    (0, 5, 150),
    (0, 12, 500),
    (1, 0, 800),
    (1, 1, 1_000),
    (1, 12, 500),
    (2, 0, 3_000),
    (2, 1, 1_500),
];

/// How often at least the class decides: what is listed, and in which order; and
/// how often a line has one.
const DECIDED: &[(&str, usize)] = &[
    ("ClassNotCompared", 600),
    ("PlanWithoutClass", 400),
    ("ListedWithoutClass", 300),
    ("ClassUnread", 500),
    ("ClassUnwritten", 200),
];

fn main() -> ExitCode {
    with_program("trials", compare, mutations)
}

fn compare(program: &Path) -> Ended {
    let tried = tried(program)?;
    for one in &tried {
        let wanted = one.request.outcome(Rules::PAPERS);
        if one.outcome != wanted {
            return Err(difference(one, &wanted));
        }
    }
    least(&tried)?;
    let kinds = counted(KINDS, factor()?);
    Ok(format!("trials: {} agree ({kinds})", tried.len()))
}

/// Runs the program once for each kind, on all of its requests.
fn tried(program: &Path) -> Result<Vec<Tried>, String> {
    let (seed, factor) = (seed()?, factor()?);
    let watch = Watch::default();
    let mut tried = Vec::new();
    for (place, kind) in KINDS.iter().enumerate() {
        let draws = kind.draws(place, seed, factor);
        let requests = draws.map(|(number, mut draw)| (kind.case)(&mut draw, number));
        let requests: Vec<Request> = requests.collect();
        let input: Vec<u8> = requests.iter().flat_map(Request::bytes).collect();
        let ended = run(program, &input).map_err(|error| error.to_string())?;
        watch.done();
        ended_well(&ended).map_err(|said| format!("{}: {said}", kind.name))?;
        tried.extend(parted(kind.name, requests, &ended.stdout)?);
    }
    Ok(tried)
}

/// Gives each request its part of what was printed, as long as it should be.
/// Where there is too little, the last parts are cut short.
fn parted(
    kind: &'static str,
    requests: Vec<Request>,
    mut printed: &[u8],
) -> Result<Vec<Tried>, String> {
    let mut tried = Vec::new();
    for (number, request) in (0..).zip(requests) {
        let length = request.outcome(Rules::PAPERS).len();
        let (outcome, rest) = printed.split_at(length.min(printed.len()));
        printed = rest;
        tried.push(Tried {
            kind,
            number,
            request,
            outcome: outcome.to_vec(),
        });
    }
    match printed.len() {
        0 => Ok(tried),
        more => Err(format!("trials: {kind}: {more} bytes too many")),
    }
}

fn difference(one: &Tried, wanted: &[u8]) -> String {
    let same = one.outcome.iter().zip(wanted);
    let at = same.take_while(|(own, other)| own == other).count();
    let from = |bytes: &[u8]| {
        let start = at.min(bytes.len()) / 4 * 4;
        let end = (start + 24).min(bytes.len());
        format!("{:02X?}", &bytes[start..end])
    };
    format!(
        "{:02X?}\ntrials: {} {}: from byte {} the outcome is {}, not {}",
        one.request.bytes(),
        one.kind,
        one.number,
        at / 4 * 4,
        from(&one.outcome),
        from(wanted)
    )
}

/// Every outcome was met often enough.
fn least(tried: &[Tried]) -> Result<(), String> {
    for (kind, refusal, least) in LEAST {
        let met = |one: &&Tried| one.request.bytes()[0] == *kind && one.outcome[0] == *refusal;
        let met = tried.iter().filter(met).count();
        let what = format!("kind {kind}, refusal {refusal}");
        enough("trials", &what, met, *least)?;
    }
    for (name, least) in DECIDED {
        let second = faults::with(name);
        let decided = |one: &&Tried| one.request.outcome(&second) != one.outcome;
        let met = tried.iter().filter(decided).count();
        enough("trials", &format!("shown with {name}"), met, *least)?;
    }
    Ok(())
}

/// Every fault in the calls that trial makes.
fn mutations(program: &Path) -> Ended {
    let tried = tried(program)?;
    caught("trials", &Fault::shown(SHOWN_BY), |fault| {
        let second = fault.rules();
        let differs = |one: &&Tried| one.request.outcome(&second) != one.outcome;
        let found = tried.iter().find(differs)?;
        Some(format!("{} {}", found.kind, found.number))
    })
}
