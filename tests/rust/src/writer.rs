//! Writing a command and its payload digits as a text line.

use crate::command::{Command, Lines, END};
use crate::reasons::first;
use crate::refusal::Refusal;
use crate::rules::Rules;

/// The length is with the 0A. Bytes past that do not change.
pub fn write(
    rules: &Rules,
    command: Command,
    payload: &[u8],
    buffer: &mut [u8],
) -> Result<usize, Refusal> {
    let line = line(&rules.writing, command, payload);
    first(&rules.reasons.write, |applies| applies(line.as_deref(), buffer.len()))?;
    let line = line.ok_or(Refusal::Line)?;
    buffer[..line.len()].copy_from_slice(&line);
    Ok(line.len())
}

/// The line, if these could stand in one.
pub fn line(lines: &Lines, command: Command, payload: &[u8]) -> Option<Vec<u8>> {
    let (digits, numbers) = command.numbers();
    let form = lines.form(digits.as_bytes())?;
    let mut text = digits.to_string();
    for (number, width) in numbers.into_iter().zip(form.widths) {
        if u64::from(number) >> (4 * width) > 0 {
            return None;
        }
        text += &format!("{number:0width$X}");
    }
    let mut line = text.into_bytes();
    line.extend_from_slice(payload);
    line.push(END);
    lines.may_follow(form, payload).then_some(line)
}
