//! Numbers in the table's bytes, low byte first.

/// Where a number stands among the bytes of a head or a row.
#[derive(Clone, Copy, PartialEq, Eq, Debug)]
pub struct Field {
    pub name: &'static str,
    pub at: usize,
    pub size: usize,
}

impl Field {
    pub fn get(self, bytes: &[u8]) -> u32 {
        let join = |number: u32, byte: &u8| number << 8 | u32::from(*byte);
        bytes[self.at..self.end()].iter().rev().fold(0, join)
    }

    pub fn put(self, bytes: &mut [u8], number: u32) {
        for place in 0..self.size {
            bytes[self.at + place] = (number >> (8 * place)) as u8;
        }
    }

    /// The first byte after it.
    pub const fn end(self) -> usize {
        self.at + self.size
    }
}

/// A list of fields, and each of them under a name.
macro_rules! fields {
    ($(#[$doc:meta])* $list:ident: $($name:ident, $says:literal, $at:literal, $size:literal;)*) => {
        $(pub const $name: Field = Field { name: $says, at: $at, size: $size };)*
        $(#[$doc])*
        pub const $list: &[Field] = &[$($name),*];
    };
}
pub(crate) use fields;
