//! Rounds written as text: the last slot, "slot:due:weight" for each taking,
//! then S and B. Every slot is sent after its takings.

use crate::call::Call;
use crate::hindsight::gain::Gain;
use crate::hindsight::script::Script;
use crate::table::row_at;
use std::fmt;

/// The recorded rounds; lines that begin with `#` say what they are.
const TEXT: &str = include_str!("../../hindsight_best.txt");

#[derive(Clone, Copy, PartialEq, Eq, Debug)]
pub struct Taking {
    pub slot: u32,
    pub due: u32,
    pub weight: u32,
}

/// The takings of a round, in the order of their slots.
#[derive(Clone, PartialEq, Eq, Debug)]
pub struct Takings {
    pub last: u32,
    pub all: Vec<Taking>,
}

/// A round and what it came to when it was recorded.
#[derive(Clone, PartialEq, Eq, Debug)]
pub struct Recorded {
    pub round: Takings,
    pub gain: Gain,
}

impl Takings {
    /// With a row for every frame.
    pub fn script(&self) -> Script {
        let mut calls = vec![Call::Open { last: self.last }];
        for slot in 0..=self.last {
            let own = self.all.iter().filter(|taking| taking.slot == slot);
            calls.extend(own.map(|taking| Call::Take {
                due: taking.due,
                weight: taking.weight,
            }));
            calls.push(Call::Send);
        }
        Script {
            table: vec![0xEE; row_at(self.all.len().max(1))],
            calls,
        }
    }
}

/// All recorded rounds.
pub fn all() -> Result<Vec<Recorded>, String> {
    let lines = TEXT.lines().filter(|line| !line.starts_with('#'));
    lines.map(read).collect()
}

/// A line as a round: three parts, "last; takings; S B".
pub fn read(line: &str) -> Result<Recorded, String> {
    let wrong = || format!("not a recorded round: {line}");
    let parts: Vec<&str> = line.split(';').map(str::trim).collect();
    let [last, takings, gain] = parts[..] else {
        return Err(wrong());
    };
    let takings = takings
        .split_whitespace()
        .map(|word| match numbers(word, ':')?[..] {
            [slot, due, weight] => Some(Taking {
                slot: u32::try_from(slot).ok()?,
                due: u32::try_from(due).ok()?,
                weight: u32::try_from(weight).ok()?,
            }),
            _ => None,
        });
    let gain = match numbers(gain, ' ').ok_or_else(wrong)?[..] {
        [sent, best] => Gain { sent, best },
        _ => return Err(wrong()),
    };
    let round = Takings {
        last: last.parse().map_err(|_| wrong())?,
        all: takings.collect::<Option<_>>().ok_or_else(wrong)?,
    };
    Ok(Recorded { round, gain })
}

fn numbers(text: &str, between: char) -> Option<Vec<u64>> {
    text.split(between).map(|word| word.parse().ok()).collect()
}

impl fmt::Display for Recorded {
    fn fmt(&self, out: &mut fmt::Formatter<'_>) -> fmt::Result {
        let shown = |taking: &Taking| format!(" {}:{}:{}", taking.slot, taking.due, taking.weight);
        let takings: String = self.round.all.iter().map(shown).collect();
        let Gain { sent, best } = self.gain;
        write!(out, "{};{takings}; {sent} {best}", self.round.last)
    }
}

#[cfg(test)]
mod tests {
    use super::*;
    use crate::hindsight::check::check;
    use crate::rules::Rules;

    #[test]
    fn lines_are_read_back() {
        let line = "1; 0:0:4 0:1:10 1:1:11; 15 21";
        let found = read(line).expect("a round");
        assert_eq!(found.round.all.len(), 3);
        assert_eq!((found.gain.sent, found.gain.best), (15, 21));
        assert_eq!(found.to_string(), line);
        let calls = crate::hand::calls("1; 0:4 1:10 S 1:11 S");
        assert_eq!(found.round.script().calls, calls);
    }

    #[test]
    fn broken_lines_are_refused() {
        for line in [
            "",
            "1; 0:0:4",
            "1; 0:4; 4 4",
            "1; 0:0:4; 4",
            "a; 0:0:4; 4 4",
            "1; 0:0:x; 4 4",
        ] {
            assert!(read(line).is_err(), "{line}");
        }
    }

    #[test]
    fn every_recorded_round_comes_to_what_is_recorded() {
        let all = all().expect("recorded rounds");
        assert!(all.len() >= 8);
        for one in all {
            let found = check(Rules::PAPERS, &one.round.script()).expect("every claim");
            assert_eq!(found.gain, one.gain, "{one}");
        }
    }
}
