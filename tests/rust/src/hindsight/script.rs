//! A round to be played: the table's bytes before it, and its calls.

use crate::call::Call;
use crate::compare::library::Library;
use crate::hand;
use crate::table::row_at;
use std::fmt::Write;

/// The bytes may be any, as opening reads no old content.
#[derive(Clone, PartialEq, Eq, Debug)]
pub struct Script {
    pub table: Vec<u8>,
    pub calls: Vec<Call>,
}

/// A call and its packed reply.
#[derive(Clone, Copy, PartialEq, Eq, Debug)]
pub struct Asked {
    pub call: Call,
    pub reply: u64,
}

impl Asked {
    pub fn is_accepted(self) -> bool {
        self.reply & 0xFF == 0
    }
}

impl Script {
    /// A round by hand, with a row for each of its calls.
    pub fn by_hand(text: &str) -> Script {
        let calls = hand::calls(text);
        Script {
            table: vec![0xEE; row_at(calls.len())],
            calls,
        }
    }

    pub fn play(&self, library: &dyn Library) -> Vec<Asked> {
        let mut table = self.table.clone();
        let ask = |call: &Call| Asked {
            call: *call,
            reply: library.ask(*call, &mut table),
        };
        self.calls.iter().map(ask).collect()
    }

    /// The calls and their replies, one a line.
    pub fn told(&self, library: &dyn Library) -> String {
        let mut text = format!("a table of {} bytes\n", self.table.len());
        for asked in self.play(library) {
            writeln!(text, "  {:?}: {:#X}", asked.call, asked.reply).expect("a string grows");
        }
        text
    }
}
