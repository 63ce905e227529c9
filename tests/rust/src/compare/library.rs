//! What is compared: a library with the stations' calls.

use crate::call::Call;
use crate::rules::Rules;

pub trait Library {
    /// The packed reply to a call over the lent table.
    fn ask(&self, call: Call, table: &mut [u8]) -> u64;
}

/// In the library's place, with a fault or none.
impl Library for Rules {
    fn ask(&self, call: Call, table: &mut [u8]) -> u64 {
        self.answer(call, table)
    }
}
