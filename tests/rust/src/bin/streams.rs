//! Compares stationround with the second implementation, byte for byte, on
//! drawn files: streams PROGRAM [--mutations].

use second::call::CallName;
use second::ending::{caught, enough, with_program, Ended};
use second::faults::{self, Fault};
use second::kind::counted;
use second::programs::files::KINDS;
use second::programs::pipes::{closed, paced};
use second::programs::process::{ended_well, run, Watch};
use second::programs::rounds::by_hand;
use second::rules::Rules;
use second::settings::{factor, seed};
use std::path::Path;
use std::process::ExitCode;

/// A file, and what the program printed for it.
struct Run {
    kind: &'static str,
    number: u64,
    file: Vec<u8>,
    output: Vec<u8>,
}

/// How often at least a reply begins so, over all files.
const LEAST: &[(&str, usize)] = &[
    ("00", 20_000),
    ("01", 50_000),
    ("020000", 10_000),
    ("020100", 5_000),
    ("020101", 5_000),
    ("020200", 200),
    ("03", 1_500),
    ("FF01", 1_500),
    ("FF03", 100),
    ("FF04", 100),
    ("FF05", 1_000),
    ("FF06", 500),
    ("FF07", 500),
    ("FF09", 30),
    ("FF0D", 1_000),
    ("FF0E", 500),
];

/// The calls whose faults lines show.
const SHOWN_BY: &[CallName] = &[
    CallName::Open,
    CallName::Take,
    CallName::TakeClass,
    CallName::Send,
    CallName::Seal,
    CallName::Read,
    CallName::Reply,
];

fn main() -> ExitCode {
    with_program("streams", compare, mutations)
}

fn compare(program: &Path) -> Ended {
    let runs = runs(program)?;
    for run in &runs {
        let wanted = Rules::PAPERS.printed(&run.file);
        if run.output != wanted.as_bytes() {
            return Err(difference(run, &wanted));
        }
    }
    least(&runs)?;
    let pipes = pipes(program)?;
    Ok(format!(
        "streams: {} files agree ({}); {pipes} times in a pipe",
        runs.len(),
        counted(KINDS, factor()?)
    ))
}

/// Runs the program on every file.
fn runs(program: &Path) -> Result<Vec<Run>, String> {
    let (seed, factor) = (seed()?, factor()?);
    let watch = Watch::default();
    let mut runs = Vec::new();
    for (place, kind) in KINDS.iter().enumerate() {
        for (number, mut draw) in kind.draws(place, seed, factor) {
            let file = (kind.case)(&mut draw, number);
            let ended = run(program, &file).map_err(|error| error.to_string())?;
            watch.done();
            let name = kind.name;
            ended_well(&ended).map_err(|said| format!("{name} {number}: {said}"))?;
            runs.push(Run {
                kind: name,
                number,
                file,
                output: ended.stdout,
            });
        }
    }
    Ok(runs)
}

/// The first line whose reply differs, and the lines before it.
fn difference(run: &Run, wanted: &str) -> String {
    let output = String::from_utf8_lossy(&run.output);
    let same = output.lines().zip(wanted.lines());
    let same = same.take_while(|(own, other)| own == other).count();
    let lines: Vec<&[u8]> = run.file.split_inclusive(|byte| *byte == b'\n').collect();
    let end = lines.len().min(same + 1);
    let shown = lines[end.saturating_sub(40)..end].iter();
    let shown: String = shown
        .map(|line| format!("{}\n", line[..line.len().min(200)].escape_ascii()))
        .collect();
    let reply = |text: &str| text.lines().nth(same).unwrap_or("nothing").to_string();
    format!(
        "{shown}streams: {} {}: the last reply is {}, not {}",
        run.kind,
        run.number,
        reply(&output),
        reply(wanted)
    )
}

/// Every reply was met often enough.
fn least(runs: &[Run]) -> Result<(), String> {
    for (start, least) in LEAST {
        let replies = runs
            .iter()
            .flat_map(|run| run.output.split(|byte| *byte == b'\n'));
        let met = replies.filter(|reply| reply.starts_with(start.as_bytes()));
        enough("streams", &format!("{start}.."), met.count(), *least)?;
    }
    let old = faults::with("ClassNotCompared");
    let decided = |run: &&Run| old.printed(&run.file).as_bytes() != run.output;
    let met = runs.iter().filter(decided).count();
    enough("streams", "files that classes decide", met, 600)
}

/// Parts of the input as they reach the program.
const PARTS: &[&[usize]] = &[&[1], &[7], &[3, 20, 1], &[16, 14], &[100, 1], &[100_000]];

/// The program in pipes; how often it was run.
fn pipes(program: &Path) -> Result<usize, String> {
    let mut times = closed(program)?;
    let rounds = second::hand::ROUNDS.iter().map(|(_, text)| by_hand(text));
    let broken = b"000001\n02\n01000100000005\n0100\n02\n".to_vec();
    let unended = b"000001\n02\n01000100000005\n02".to_vec();
    for file in rounds.chain([broken, unended]) {
        let by_line: Vec<usize> = file
            .split_inclusive(|byte| *byte == b'\n')
            .map(<[u8]>::len)
            .collect();
        for parts in PARTS.iter().copied().chain([by_line.as_slice()]) {
            paced(program, &file, parts)?;
            times += 1;
        }
    }
    Ok(times)
}

/// Every fault that lines can show.
fn mutations(program: &Path) -> Ended {
    let runs = runs(program)?;
    let mut all = Fault::shown(SHOWN_BY);
    all.retain(|fault| fault.in_lines);
    caught("streams", &all, |fault| {
        let second = fault.rules();
        let differs = |run: &&Run| second.printed(&run.file).as_bytes() != run.output;
        let found = runs.iter().find(differs)?;
        Some(format!("{} {}", found.kind, found.number))
    })
}
