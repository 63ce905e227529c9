//! The payload as a part of the caller's line, still in digits.

use crate::rules::Rules;

/// With no payload digits, or on refusal 1, the empty part at the line's start.
pub fn place(rules: &Rules, line: &[u8]) -> (usize, usize) {
    let Ok(command) = rules.read(line) else {
        return (0, 0);
    };
    let (digits, _) = command.numbers();
    let form = rules.reading.form(digits.as_bytes());
    let (start, end) = (form.map_or(0, |form| form.front()), line.len() - 1);
    match start < end {
        true => (start, end),
        false => (0, 0),
    }
}

impl Rules {
    /// That part of the line.
    pub fn payload<'a>(&self, line: &'a [u8]) -> &'a [u8] {
        let (start, end) = self.payload_place(line);
        &line[start..end]
    }
}
