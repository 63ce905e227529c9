//! The kinds of files that stationround is run on.

use crate::call::Call;
use crate::compare::classes::taking_of;
use crate::compare::draw::Draw;
use crate::hand;
use crate::kind::Kind;
use crate::programs::noise::{damage, long_line, noise, odd_line};
use crate::programs::rounds::{by_hand, leaps, line, lines, round, sealed, Drawn};
use crate::round::Round;

/// Draws one file; the number says which of its kind.
pub type File = fn(&mut Draw, u64) -> Vec<u8>;

pub const KINDS: &[Kind<File>] = &[
    Kind::fixed("by hand", hand::ROUNDS.len() as u64, |_, number| {
        by_hand(hand::ROUNDS[number as usize].1)
    }),
    Kind::fixed("cut at every length", PREFIXES, prefix),
    Kind::drawn("valid", 1_200, valid),
    Kind::drawn("leaps", 1_000, |draw, _| leaps(draw)),
    Kind::drawn("reopened", 400, |draw, _| {
        let (start, lines) = (Drawn::reopened(draw), lines(draw));
        round(draw, start, lines)
    }),
    Kind::drawn("damaged", 1_200, |draw, number| {
        let mut file = valid(draw, number);
        damage(draw, &mut file);
        file
    }),
    Kind::drawn("cut", 400, |draw, number| {
        let mut file = valid(draw, number);
        file.truncate(draw.below(file.len() as u64 + 1) as usize);
        file
    }),
    Kind::drawn("odd lines", 800, |draw, _| {
        let (start, few) = (Drawn::new(draw), draw.between(0, 6));
        let mut file = round(draw, start, few);
        file.extend(odd_line(draw));
        file.extend_from_slice(b"02\n");
        file
    }),
    Kind::drawn("random bytes", 600, |draw, _| noise(draw)),
    Kind::drawn("long lines", 60, long),
    Kind::drawn("long files", 12, many_lines),
    Kind::drawn("full tables", 24, full),
    Kind::drawn("sealed", 1_500, |draw, _| sealed(draw)),
    Kind::drawn("classes", 1_500, |draw, _| {
        let (start, lines) = (Drawn::of_equals(draw), lines(draw));
        round(draw, start, lines)
    }),
];

fn valid(draw: &mut Draw, _: u64) -> Vec<u8> {
    let (start, lines) = (Drawn::new(draw), lines(draw));
    round(draw, start, lines)
}

/// The rounds by hand whose every prefix is a file, and how many these are.
const CUT_ROUNDS: usize = 11;
const PREFIXES: u64 = 616;

/// The first bytes of the rounds by hand, one byte more from file to file.
fn prefix(_: &mut Draw, number: u64) -> Vec<u8> {
    let mut length = number as usize;
    for (_, text) in &hand::ROUNDS[..CUT_ROUNDS] {
        let mut file = by_hand(text);
        if length <= file.len() {
            file.truncate(length);
            return file;
        }
        length -= file.len() + 1;
    }
    Vec::new()
}

/// A few lines, then one of a length at or near a power of two, at times
/// without its end.
fn long(draw: &mut Draw, _: u64) -> Vec<u8> {
    let (start, few) = (Drawn::new(draw), draw.between(0, 3));
    let mut file = round(draw, start, few);
    let length = match draw.below(4) {
        0 => draw.between(64, 1_000) as usize,
        _ => (1 << draw.between(7, 17)) + draw.between(0, 4) as usize - 2,
    };
    file.extend(long_line(draw, length));
    if draw.once_in(3) {
        file.pop();
    }
    file.extend_from_slice(b"02\n");
    file
}

/// More lines than any buffer holds.
fn many_lines(draw: &mut Draw, _: u64) -> Vec<u8> {
    let mut drawn = Drawn::reopened(draw);
    let mut file = drawn.open();
    let length = draw.between(70_000, 90_000) as usize;
    while file.len() < length {
        file.push_str(&drawn.line(draw));
    }
    file.into_bytes()
}

/// As many frames as the table has rows, or one or two less or more, then
/// sendings and takings.
fn full(draw: &mut Draw, number: u64) -> Vec<u8> {
    let last = *draw.pick(&[0, 3, 600, 1_023, 1_500, Round::LAST.0]);
    let most = *draw.pick(&[1, 3, 1_000, Round::WEIGHT.0]);
    let mut file = line(Call::Open { last }, "");
    for _ in 0..Round::ROWS as u64 + 2 - number % 4 {
        let class = draw.between(0, Round::CLASS.0);
        file.push_str(&taking(draw, 0, last, most, class));
    }
    let refused = draw.between(0, Round::CLASS.0 + 1);
    file.push_str(&taking(draw, 0, last, most, refused));
    for slot in 1..=draw.between(2, 6) {
        file.push_str(&line(Call::Send, ""));
        for _ in 0..draw.between(0, 3) {
            let class = draw.between(0, Round::CLASS.0 + 1);
            file.push_str(&taking(draw, slot, last, most, class));
        }
    }
    file.into_bytes()
}

fn taking(draw: &mut Draw, slot: u32, last: u32, most: u32, class: u32) -> String {
    let due = draw.between(slot.min(last), last);
    let weight = draw.between(1, most);
    line(taking_of(draw, due, weight, class), "")
}

#[cfg(test)]
mod tests {
    use super::*;

    #[test]
    fn every_prefix_is_a_file() {
        let rounds = hand::ROUNDS[..CUT_ROUNDS].iter();
        let prefixes = rounds.map(|(_, text)| by_hand(text).len() as u64 + 1);
        assert_eq!(prefixes.sum::<u64>(), PREFIXES);
        let last = by_hand(hand::ROUNDS[CUT_ROUNDS - 1].1);
        assert_eq!(prefix(&mut Draw::new(0), PREFIXES - 1), last);
    }
}
