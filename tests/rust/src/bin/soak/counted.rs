//! A library that counts what is asked of it: by kind of input, by size of
//! table, and by outcome.

use second::call::Call;
use second::compare::library::Library;
use second::compare::tally::Tally;
use second::round::Round;
use second::table::{is_sealed, row_at, rows_of, LAST};
use std::cell::RefCell;
use std::collections::BTreeMap;
use std::fmt::Display;

/// The sizes that are told apart: the most rows of each, and its name.
const SIZES: &[(usize, &str)] = &[
    (15, "1 to 15"),
    (127, "16 to 127"),
    (1_023, "128 to 1,023"),
    (1_024, "1,024"),
    (usize::MAX, "no table"),
];

/// From this place of `SIZES` on to the last but one, a table has 128 rows or more.
const LARGE: usize = 2;

#[derive(Default)]
pub struct Counts {
    /// By size, of the kind that runs now.
    sizes: [u64; SIZES.len()],
    /// By size, of each kind that has run.
    kinds: BTreeMap<&'static str, [u64; SIZES.len()]>,
    /// Accepted sendings at 1,024 rows with last slot 4,095.
    pub fullest: u64,
    pub outcomes: Tally,
}

impl Counts {
    /// One call more, by the table it was lent and the reply.
    fn add(&mut self, call: Call, table: &[u8], reply: u64) {
        self.sizes[size(table.len())] += 1;
        self.outcomes.add(call.name(), reply, is_sealed(table));
        let fullest = table.len() == row_at(Round::ROWS) && LAST.get(table) == Round::LAST.0;
        if call == Call::Send && reply & 0xFF == 0 && fullest {
            self.fullest += 1;
        }
    }

    /// What was counted since the last kind ended belongs to this one.
    pub fn end_of(&mut self, kind: &'static str) {
        let own = self.kinds.entry(kind).or_default();
        for (sum, count) in own.iter_mut().zip(std::mem::take(&mut self.sizes)) {
            *sum += count;
        }
    }

    fn of_size(&self, size: usize) -> u64 {
        self.kinds.values().map(|own| own[size]).sum()
    }

    pub fn large(&self) -> u64 {
        self.of_size(LARGE) + self.of_size(LARGE + 1)
    }

    pub fn show(&self) {
        println!("{}", line("rows", SIZES.iter().map(|size| size.1)));
        for (kind, own) in &self.kinds {
            println!("{}", line(kind, own));
        }
        let sums = (0..SIZES.len()).map(|size| self.of_size(size));
        println!("{}", line("all", sums));
        for outcomes in self.outcomes.lines() {
            println!("{outcomes}");
        }
    }
}

fn line(name: &str, cells: impl IntoIterator<Item = impl Display>) -> String {
    let cells: Vec<String> = cells
        .into_iter()
        .map(|cell| format!("{cell:>13}"))
        .collect();
    format!("{name:10}{}", cells.concat())
}

/// The library, with its counts beside it.
pub struct Counted<'a> {
    pub library: Box<dyn Library>,
    pub counts: &'a RefCell<Counts>,
}

impl Library for Counted<'_> {
    fn ask(&self, call: Call, table: &mut [u8]) -> u64 {
        let reply = self.library.ask(call, table);
        self.counts.borrow_mut().add(call, table, reply);
        reply
    }
}

/// The place of a table's size; a length that refusal 2 turns down is the last one.
fn size(length: usize) -> usize {
    let rows = rows_of(length).unwrap_or(usize::MAX);
    let place = SIZES.iter().position(|size| rows <= size.0);
    place.expect("the last has no limit")
}
