//! What sealing promises, over drawn lists of calls: from an accepted sealing
//! on, unless the round is opened anew, every row then in the plan has gone out
//! once its due slot is sent, and no mark sinks.

use second::call::Call;
use second::compare::classes::{taking, Classes};
use second::compare::draw::Draw;
use second::counts::Slot;
use second::faults;
use second::listing::Entry;
use second::rules::Rules;
use second::table::{decode, row_at};

const ROWS: usize = 9;

/// What is promised, and what was seen of it since.
#[derive(Default)]
struct Promise {
    /// The plan's rows at a sealing.
    rows: Vec<Entry>,
    /// The tickets that replies named since, each with its slot.
    gone: Vec<(u32, u32)>,
}

impl Promise {
    /// Every row whose due slot was sent was named by a reply in time.
    fn is_kept(&self, slot: u32) -> bool {
        let is_gone = |row: &Entry| {
            let named = |(ticket, at): &(u32, u32)| *ticket == row.ticket.0 && *at <= row.due.0;
            self.gone.iter().any(named)
        };
        self.rows
            .iter()
            .all(|row| row.due.0 >= slot || is_gone(row))
    }
}

fn planned(table: &[u8]) -> Vec<Entry> {
    let mut entries = [Entry::ZERO; ROWS];
    let count = Rules::PAPERS.list(table, &mut entries).unwrap_or(0);
    entries[..count].to_vec()
}

fn marks(second: &Rules, table: &[u8]) -> Vec<(u32, u32)> {
    let round = decode(table);
    let mark = |s| second.mark(Slot(s), table).expect("a mark").0;
    (round.slot.0..=round.last.0)
        .map(|s| (s, mark(s)))
        .collect()
}

/// No mark of a slot still ahead sinks.
fn marks_hold(before: &[(u32, u32)], after: &[(u32, u32)]) -> bool {
    let held = |&(slot, mark): &(u32, u32)| {
        let old = before.iter().find(|(s, _)| *s == slot);
        old.is_some_and(|(_, old)| mark >= *old)
    };
    after.iter().all(held)
}

/// Takings and sendings, sealed once in a while; refused calls, questions and
/// openings among them.
fn drawn(draw: &mut Draw, last: u32, most: u32, table: &[u8]) -> Call {
    let round = decode(table);
    let due = draw.between(round.slot.0.min(last), last);
    let takes = if round.sealed { 3 } else { 12 };
    match draw.below(20) {
        chance if chance < takes => {
            let weight = draw.between(1, most);
            taking(draw, due, weight, Classes::Any)
        }
        15 => Call::Mark { slot: due },
        16 => Call::Total,
        17 if draw.once_in(6) => Call::Open { last },
        17 => Call::Open { last: 4_096 },
        18 => Call::Seal,
        _ => Call::Send,
    }
}

/// How a list went: whether all of it held, and what it met.
struct Met {
    holds: bool,
    sealed: usize,
    promised: usize,
    silent: usize,
}

fn list(second: &Rules, seed: u64) -> Met {
    let mut draw = Draw::new(seed);
    let mut table = vec![0xEE; row_at(draw.between(1, ROWS as u32) as usize)];
    let last = draw.between(0, 7);
    let most = *draw.pick(&[2, 9, 40]);
    second.answer(Call::Open { last }, &mut table);
    let mut promise = Promise::default();
    let mut met = Met {
        holds: true,
        sealed: 0,
        promised: 0,
        silent: 0,
    };
    for _ in 0..30 {
        let call = drawn(&mut draw, last, most, &table);
        let before = decode(&table);
        let marked = marks(second, &table);
        let reply = second.answer(call, &mut table);
        let slot = before.slot.0;
        let opened = matches!(call, Call::Open { .. }) && reply == 0;
        match call {
            _ if reply & 0xFF != 0 => (),
            Call::Open { .. } => promise = Promise::default(),
            Call::Seal => {
                promise.rows.extend(planned(&table));
                met.sealed += 1;
                met.promised += promise.rows.len();
            }
            Call::Send => {
                let silence = reply >> 32 & 3 == 0;
                let waiting = before.sealed && !before.rows.is_empty();
                met.silent += usize::from(silence && waiting);
                promise.gone.push(((reply >> 8 & 0xFF_FFFF) as u32, slot));
            }
            _ => (),
        }
        let kept = promise.is_kept(decode(&table).slot.0);
        met.holds &= kept && (opened || marks_hold(&marked, &marks(second, &table)));
    }
    met
}

#[test]
fn planned_rows_go_out() {
    let (mut sealed, mut promised, mut silent) = (0, 0, 0);
    for seed in 0..20_000 {
        let met = list(Rules::PAPERS, seed);
        assert!(met.holds, "seed {seed}");
        sealed += met.sealed;
        promised += met.promised;
        silent += met.silent;
    }
    assert!(sealed > 10_000 && promised > 20_000 && silent > 2_000, "{sealed} {promised} {silent}");
}

/// Sealed rounds that go on leaping, take frames, forget their seal or send
/// other rows break the promise on such lists.
#[test]
fn the_lists_are_hard_enough() {
    for name in [
        "SealedPlaysPlanM",
        "SealedTakes",
        "SealedSendsLeftOut",
        "SealedHeaviestFirst",
        "SealStoresNothing",
        "SealingToggles",
        "SendingUnseals",
    ] {
        let second = faults::with(name);
        let broken = (0..20_000).find(|seed| !list(&second, *seed).holds);
        assert!(broken.is_some(), "{name}");
    }
}
