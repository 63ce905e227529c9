//! The bytes a table is lent in, with guard bytes on both sides.

use crate::round::Round;
use crate::table::row_at;

/// Guard bytes on each side.
const GUARD: usize = 64;
/// The guard bytes' value.
const SEAL: u8 = 0xC3;

pub struct Store {
    bytes: Vec<u8>,
    start: usize,
    length: usize,
}

impl Default for Store {
    fn default() -> Store {
        Store::new()
    }
}

impl Store {
    pub fn new() -> Store {
        let most = row_at(Round::ROWS) + 4_096;
        Store {
            bytes: vec![SEAL; most + 2 * GUARD],
            start: GUARD,
            length: 0,
        }
    }

    /// Lends a copy of the table, up to 7 bytes off any alignment.
    pub fn lend(&mut self, table: &[u8], shift: usize) -> &mut [u8] {
        self.start = GUARD + shift % 8;
        self.length = table.len();
        let end = self.start + self.length;
        self.bytes[..self.start].fill(SEAL);
        self.bytes[end..end + GUARD - 8].fill(SEAL);
        self.bytes[self.start..end].copy_from_slice(table);
        &mut self.bytes[self.start..end]
    }

    /// The lent bytes as they stand now.
    pub fn lent(&self) -> &[u8] {
        &self.bytes[self.start..self.start + self.length]
    }

    /// Whether the guard bytes still stand.
    pub fn guarded(&self) -> bool {
        let end = self.start + self.length;
        let before = &self.bytes[..self.start];
        let after = &self.bytes[end..end + GUARD - 8];
        before.iter().chain(after).all(|byte| *byte == SEAL)
    }
}

#[cfg(test)]
mod tests {
    use super::*;

    #[test]
    fn notices_a_byte_on_either_side() {
        for (shift, off) in [(0, 0), (3, 1), (7, 55)] {
            let mut store = Store::new();
            store.lend(&[1, 2, 3], shift);
            assert!(store.guarded());
            assert_eq!(store.lent(), [1, 2, 3]);
            let after = store.start + 3 + off;
            store.bytes[after] = 0;
            assert!(!store.guarded());
            store.lend(&[1, 2, 3], shift);
            let before = store.start - 1 - off;
            store.bytes[before] = 0;
            assert!(!store.guarded());
        }
    }
}
