//! The lent table: a head of 16 bytes, then 1 to 1,024 rows of 24, numbers low byte first.

pub const HEAD: usize = 16;
pub const ROW: usize = 24;
pub const MOST_ROWS: usize = 1_024;
/// Smaller tables are planned in smaller arrays.
pub const SMALL_ROWS: usize = 32;
pub const MIDDLE_ROWS: usize = 256;
pub const SMALL: usize = HEAD + ROW * SMALL_ROWS;
pub const MIDDLE: usize = HEAD + ROW * MIDDLE_ROWS;
pub const MOST_LAST: u32 = 4_095;
pub const MOST_WEIGHT: u32 = 1 << 24;
pub const TICKET_LIMIT: u32 = 1 << 24;
pub const MOST_CLASS: u32 = 3;

/// The head's fields.
pub const SLOT: Field = Field { at: 0, size: 2 };
pub const LAST: Field = Field { at: 2, size: 2 };
pub const NEXT: Field = Field { at: 4, size: 4 };
pub const USED: Field = Field { at: 8, size: 2 };
pub const SEALED: Field = Field { at: 10, size: 1 };

/// A row's fields.
pub const TICKET: Field = Field { at: 0, size: 4 };
pub const DUE: Field = Field { at: 4, size: 2 };
pub const WEIGHT: Field = Field { at: 6, size: 4 };
pub const KIND: Field = Field { at: 10, size: 1 };
pub const CLASS: Field = Field { at: 11, size: 1 };

/// The bytes of a word.
pub const WORD: usize = 8;

/// Where a number stands: its first byte, and how many it has.
#[derive(Clone, Copy)]
pub struct Field {
    pub at: usize,
    pub size: usize,
}

impl Field {
    #[inline(always)]
    pub fn get(self, bytes: &[u8]) -> u32 {
        let mut four = [0; 4];
        four[..self.size].copy_from_slice(&bytes[self.at..self.end()]);
        u32::from_le_bytes(four)
    }

    #[inline(always)]
    pub fn put(self, bytes: &mut [u8], number: u32) {
        bytes[self.at..self.end()].copy_from_slice(&number.to_le_bytes()[..self.size]);
    }

    /// Out of the word that it stands in.
    #[inline(always)]
    pub fn of_word(self, word: u64) -> u32 {
        let above = 8 * (WORD - self.size);
        let end = 8 * (WORD - self.end() % WORD) % 64;
        (word << end >> above) as u32
    }

    /// The first byte after it.
    pub const fn end(self) -> usize {
        self.at + self.size
    }
}

pub type Row = [u8; ROW];

/// The head's numbers.
#[derive(Clone, Copy)]
pub struct Head {
    pub slot: u32,
    pub last: u32,
    pub next: u32,
    pub used: usize,
}

/// Whether a sound table's round is sealed. It is no part of the head, which so fits in the registers while rows are judged.
#[inline(always)]
pub fn is_sealed(table: &[u8]) -> bool {
    table.get(SEALED.at) == Some(&1)
}

/// Whether refusal 2 lets this length through.
pub fn is_length(length: usize) -> bool {
    let rows = length.wrapping_sub(HEAD);
    rows.is_multiple_of(ROW) && rows.wrapping_sub(1) < ROW * MOST_ROWS
}

/// Eight bytes of the table.
#[inline(always)]
pub fn word(bytes: &[u8], at: usize) -> u64 {
    let mut eight = [0; WORD];
    eight.copy_from_slice(&bytes[at..at + WORD]);
    u64::from_le_bytes(eight)
}

/// The rows of a table of a good length.
#[inline(always)]
pub fn rows(table: &[u8]) -> &[Row] {
    table[HEAD..].as_chunks().0
}

#[inline(always)]
pub fn rows_mut(table: &mut [u8]) -> &mut [Row] {
    table[HEAD..].as_chunks_mut().0
}

#[inline(always)]
pub fn ticket(row: &Row) -> u32 {
    TICKET.of_word(word(row, 0))
}

/// By its two bytes: with `get` a substitute takes up to 2 % more instructions.
#[inline(always)]
pub fn due(row: &Row) -> u32 {
    u32::from(u16::from_le_bytes([row[DUE.at], row[DUE.at + 1]]))
}

#[inline(always)]
pub fn weight(row: &Row) -> u32 {
    WEIGHT.get(row)
}

#[inline(always)]
pub fn class(row: &Row) -> u32 {
    u32::from(row[CLASS.at])
}

/// Among rows of one weight the heavier has the smaller: earlier due, then of the smaller class.
#[inline(always)]
pub fn rank(row: &Row) -> u32 {
    due(row) << 2 | class(row)
}

/// Makes a row a kept blank.
#[inline(always)]
pub fn keep(row: &mut Row, due: u32, weight: u32) {
    set(row, due, weight);
    KIND.put(row, 1);
    CLASS.put(row, MOST_CLASS);
}

/// Gives a row a due slot and a weight.
#[inline(always)]
pub fn set(row: &mut Row, due: u32, weight: u32) {
    DUE.put(row, due);
    WEIGHT.put(row, weight);
}
