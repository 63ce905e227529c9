//! The bench: one call asked of both, and every difference told.

use crate::call::Call;
use crate::compare::library::Library;
use crate::compare::store::Store;
use crate::compare::tally::Tally;
use crate::rules::Rules;
use crate::table::{is_sealed, row_at, HEAD, ROW};
use std::fmt;

pub struct Bench<'a> {
    library: &'a dyn Library,
    second: &'a Rules,
    store: Store,
    before: Vec<u8>,
    /// Calls that agreed so far.
    pub agreed: u64,
    /// Their outcomes.
    pub tally: Tally,
}

/// Where the two differ.
#[derive(Debug)]
pub struct Difference {
    pub call: Call,
    pub library: u64,
    pub second: u64,
    pub what: String,
    pub before: Vec<u8>,
}

pub type Agreed<T> = Result<T, Box<Difference>>;

impl<'a> Bench<'a> {
    pub fn new(library: &'a dyn Library, second: &'a Rules) -> Bench<'a> {
        Bench {
            library,
            second,
            store: Store::new(),
            before: Vec::new(),
            agreed: 0,
            tally: Tally::default(),
        }
    }

    /// Asks both and compares the reply, each lent byte and the guard bytes.
    pub fn check(&mut self, call: Call, table: &mut [u8]) -> Agreed<u64> {
        self.before.clear();
        self.before.extend_from_slice(table);
        let lent = self.store.lend(table, self.agreed as usize);
        let library = self.library.ask(call, lent);
        let second = self.second.answer(call, table);
        let what = self.difference(library, second, table);
        if let Some(what) = what {
            let before = self.before.clone();
            return Err(Box::new(Difference {
                call,
                library,
                second,
                what,
                before,
            }));
        }
        self.agreed += 1;
        self.tally.add(call.name(), second, is_sealed(table));
        Ok(second)
    }

    /// The same on a copy, for a call whose table is not wanted.
    pub fn check_aside(&mut self, call: Call, table: &[u8]) -> Agreed<u64> {
        self.check(call, &mut table.to_vec())
    }

    fn difference(&self, library: u64, second: u64, table: &[u8]) -> Option<String> {
        if !self.store.guarded() {
            return Some("bytes outside the table changed".to_string());
        }
        if library != second {
            return Some("the replies differ".to_string());
        }
        let lent = self.store.lent();
        if lent == table {
            return None;
        }
        let at = (0..table.len()).find(|at| lent[*at] != table[*at])?;
        Some(format!("byte {at} is {:02X}, not {:02X}", lent[at], table[at]))
    }
}

impl fmt::Display for Difference {
    fn fmt(&self, out: &mut fmt::Formatter<'_>) -> fmt::Result {
        writeln!(out, "{:?}: {}", self.call, self.what)?;
        writeln!(out, "library {:#X}, second {:#X}", self.library, self.second)?;
        write!(out, "table before, {} bytes:", self.before.len())?;
        for (at, byte) in self.before.iter().take(row_at(20)).enumerate() {
            let starts = at == 0 || at >= HEAD && (at - HEAD) % ROW == 0;
            write!(out, "{}{byte:02X}", if starts { "\n  " } else { " " })?;
        }
        Ok(())
    }
}
