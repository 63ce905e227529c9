//! Rows leave and the others close up, in ticket order.

use crate::table::{due, Head, Row, ROW};

/// Removes the rows due in the current slot, and the one at `gone` if it leaves too; returns the rows in use.
pub fn close_up(rows: &mut [Row], head: Head, due_now: usize, gone: Option<usize>) -> usize {
    let used = &mut rows[..head.used];
    let others = match gone {
        Some(gone) => due_now - usize::from(due(&used[gone]) == head.slot),
        None => due_now,
    };
    let mut left = others + usize::from(gone.is_some());
    let kept = used.len() - left;
    let (mut from, mut to) = (0, 0);
    let gone = gone.unwrap_or(usize::MAX);
    while left > 0 {
        let at = if others == 0 {
            gone
        } else {
            next(used, from, head.slot, gone)
        };
        used.copy_within(from..at, to);
        to += at - from;
        from = at + 1;
        left -= 1;
    }
    used.copy_within(from.., to);
    used[kept..].fill([0; ROW]);
    kept
}

/// The next row that leaves.
#[inline(always)]
fn next(used: &[Row], from: usize, slot: u32, gone: usize) -> usize {
    let found = used[from..].iter().position(|row| due(row) == slot);
    let at = found.map_or(usize::MAX, |steps| from + steps);
    if gone >= from {
        at.min(gone)
    } else {
        at
    }
}
