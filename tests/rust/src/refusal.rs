//! The reasons to refuse, each with document 01's or 02's number.

#[derive(Clone, Copy, PartialEq, Eq, Debug)]
pub enum Refusal {
    /// The text line breaks the rules, or could not be written by them.
    Line = 1,
    /// The table's length is not 16 + 24 × n for n from 1 to 1,024.
    Length = 2,
    /// The table is not sound.
    Unsound = 3,
    /// The last slot asked for is above 4,095.
    LastTooLate = 4,
    /// The current slot is past the last.
    Over = 5,
    /// The weight is 0 or above 16,777,216.
    Weight = 6,
    /// The due slot, or the slot whose mark is asked, is before the current or after the last.
    Slot = 7,
    /// The next ticket is 16,777,216.
    Tickets = 8,
    /// Every row is in use.
    Full = 9,
    /// The ticket is in no row.
    NoRow = 10,
    /// The ticket's row is not in the plan.
    OutsidePlan = 11,
    /// The lent list or the writer's buffer is too short.
    Short = 12,
    /// The round is sealed.
    Sealed = 13,
    /// The class is above 3.
    Class = 14,
}

impl Refusal {
    pub fn number(self) -> u8 {
        self as u8
    }
}
