//! Drawn rounds as text lines: ties frequent, weights near the limits, refused
//! lines among them.

use crate::call::Call;
use crate::compare::classes::{classes, taking, Classes};
use crate::compare::draw::Draw;
use crate::compare::tables::{weight, weights, Weights};
use crate::hand;
use crate::round::Round;

/// The line of a call, with these payload digits.
pub fn line(call: Call, payload: &str) -> String {
    match call {
        Call::Open { last } => format!("00{last:04X}\n"),
        Call::Take { due, weight } => format!("01{due:04X}{weight:08X}{payload}\n"),
        Call::TakeClass { due, weight, class } => {
            format!("04{due:04X}{weight:08X}{class:02X}{payload}\n")
        }
        Call::Seal => "03\n".to_string(),
        _ => "02\n".to_string(),
    }
}

/// With a class that two digits hold.
fn short(call: Call) -> Call {
    match call {
        Call::TakeClass { due, weight, class } if class > 255 => Call::TakeClass {
            due,
            weight,
            class: 4 + class % 252,
        },
        _ => call,
    }
}

/// A round by hand as lines.
pub fn by_hand(text: &str) -> Vec<u8> {
    let lines = hand::calls(text).into_iter().map(|call| line(call, ""));
    lines.collect::<String>().into_bytes()
}

/// Payload digits, of so many bytes at most.
pub fn payload(draw: &mut Draw, most: u64) -> String {
    let bytes = draw.below(most + 1);
    let digit = |_| char::from(*draw.pick(b"0123456789ABCDEF"));
    (0..2 * bytes).map(digit).collect()
}

/// A round under way, as far as its lines are drawn by it.
pub struct Drawn {
    last: u32,
    slot: u32,
    /// How far ahead of the current slot frames are due.
    reach: u32,
    weights: Weights,
    classes: Classes,
    /// Takings, openings and sealings among a hundred lines; the rest are
    /// sendings.
    takes: u64,
    opens: u64,
    seals: u64,
}

impl Drawn {
    pub fn new(draw: &mut Draw) -> Drawn {
        let last = match draw.below(40) {
            0 => draw.between(200, Round::LAST.0),
            1 => Round::LAST.0,
            2..=12 => draw.between(10, 120),
            _ => draw.between(0, 12),
        };
        Drawn {
            last,
            slot: last + 1,
            reach: *draw.pick(&[1, 3, 8, last.max(1)]),
            weights: weights(draw),
            classes: classes(draw),
            takes: *draw.pick(&[20, 40, 60, 80]),
            opens: 2,
            seals: *draw.pick(&[0, 0, 0, 2]),
        }
    }

    /// The same, with openings in every few lines.
    pub fn reopened(draw: &mut Draw) -> Drawn {
        Drawn {
            opens: *draw.pick(&[10, 25, 60]),
            ..Drawn::new(draw)
        }
    }

    /// Few weights and near due slots: what is equal is told apart by its class.
    pub fn of_equals(draw: &mut Draw) -> Drawn {
        Drawn {
            last: draw.between(0, 7),
            reach: draw.between(0, 3),
            weights: Weights::UpTo(*draw.pick(&[1, 1, 2, 3])),
            classes: Classes::Any,
            ..Drawn::new(draw)
        }
    }

    /// The opening of the round.
    pub fn open(&mut self) -> String {
        self.slot = 0;
        line(Call::Open { last: self.last }, "")
    }

    /// Another line of the round.
    pub fn line(&mut self, draw: &mut Draw) -> String {
        let over = self.slot > self.last && draw.once_in(4);
        let chance = if over { 0 } else { draw.below(100) };
        if chance < self.opens {
            return self.reopen(draw);
        }
        if chance >= 100 - self.seals {
            return line(Call::Seal, "");
        }
        if chance >= self.opens + self.takes {
            return self.send();
        }
        self.take(draw)
    }

    fn send(&mut self) -> String {
        self.slot = (self.slot + 1).min(self.last + 1);
        line(Call::Send, "")
    }

    fn take(&self, draw: &mut Draw) -> String {
        let (due, weight) = (self.due(draw), self.weight(draw));
        let call = short(taking(draw, due, weight, self.classes));
        let most = if draw.once_in(3) { 24 } else { 0 };
        line(call, &payload(draw, most))
    }

    /// Mostly the same round again, at times another, or one that 4 refuses.
    fn reopen(&mut self, draw: &mut Draw) -> String {
        match draw.below(8) {
            0 => {
                let last = *draw.pick(&[4_096, 4_097, 32_768, 65_535]);
                return line(Call::Open { last }, "");
            }
            1..=3 => self.last = draw.between(0, 9),
            _ => {}
        }
        self.open()
    }

    /// A due slot within reach, at times a bad one.
    fn due(&self, draw: &mut Draw) -> u32 {
        match draw.below(40) {
            0 => self.slot.saturating_sub(1),
            1 => self.last + 1,
            2 => draw.between(0, 65_535),
            _ => (self.slot + draw.between(0, self.reach)).min(self.last),
        }
    }

    /// A weight as the round's are drawn, at times one that 6 refuses.
    fn weight(&self, draw: &mut Draw) -> u32 {
        match draw.below(50) {
            0 => *draw.pick(&[0, 16_777_217, 33_554_432, u32::MAX]),
            _ => weight(draw, self.weights),
        }
    }
}

/// A round of so many lines after its opening, at times without it, and at
/// times sent on past its end.
pub fn round(draw: &mut Draw, mut drawn: Drawn, lines: u32) -> Vec<u8> {
    let mut file = String::new();
    if !draw.once_in(30) {
        file.push_str(&drawn.open());
    }
    for _ in 0..lines {
        file.push_str(&drawn.line(draw));
    }
    if draw.once_in(3) {
        for _ in 0..draw.between(1, 20) {
            file.push_str(&line(Call::Send, ""));
        }
    }
    file.into_bytes()
}

/// Mostly few lines.
pub fn lines(draw: &mut Draw) -> u32 {
    match draw.below(20) {
        0 => draw.between(150, 400),
        1..=4 => draw.between(40, 120),
        _ => draw.between(0, 40),
    }
}

/// About one frame due in each slot, lighter from slot to slot but for a few
/// heavy ones, and at times some left over, sent to the end with light
/// newcomers on the way: leaps, and what they leave behind.
pub fn leaps(draw: &mut Draw) -> Vec<u8> {
    let last = draw.between(1, 9);
    let scale = *draw.pick(&[2, 4, 10, 100_000]);
    let over = *draw.pick(&[0, 0, 1, 4]);
    let classes = classes(draw);
    let mut file = line(Call::Open { last }, "");
    let mut frame = |draw: &mut Draw, due: u32, weight: u32| {
        file.push_str(&line(short(taking(draw, due, weight, classes)), ""));
    };
    for due in (0..=last).filter(|_| draw.below(8) > 0).collect::<Vec<_>>() {
        let heavy = if draw.once_in(3) {
            draw.between(2, 5)
        } else {
            1
        };
        let falls = (last + 1 - due) * scale / (last + 1);
        let weight = (falls + draw.between(1, 3)) * heavy;
        frame(draw, due, weight);
    }
    for _ in 0..over {
        let (due, weight) = (draw.between(0, last), draw.between(1, 3));
        frame(draw, due, weight);
    }
    for slot in 1..=last + 1 {
        file.push_str(&line(Call::Send, ""));
        if slot <= last && draw.once_in(3) {
            let due = draw.between(slot, last);
            let weight = draw.between(1, scale + 2);
            file.push_str(&line(short(taking(draw, due, weight, classes)), ""));
        }
    }
    file.into_bytes()
}

/// A round that is sealed midway and sent to its end, with takings tried in
/// between; then past its end, and at times another one, or a sealing before.
pub fn sealed(draw: &mut Draw) -> Vec<u8> {
    let mut drawn = Drawn {
        last: draw.between(0, 12),
        opens: 0,
        seals: 0,
        ..Drawn::new(draw)
    };
    let mut file = String::new();
    if draw.once_in(20) {
        file.push_str(&line(Call::Seal, ""));
    }
    file.push_str(&drawn.open());
    let seal_at = draw.between(0, drawn.last);
    while drawn.slot < seal_at {
        file.push_str(&drawn.line(draw));
    }
    for _ in 0..draw.between(0, 2 * (drawn.last + 1 - seal_at)) {
        file.push_str(&drawn.take(draw));
    }
    file.push_str(&line(Call::Seal, ""));
    while drawn.slot <= drawn.last {
        match draw.below(6) {
            0 => file.push_str(&drawn.take(draw)),
            1 if draw.once_in(3) => file.push_str(&line(Call::Seal, "")),
            _ => file.push_str(&drawn.send()),
        }
    }
    for call in [Call::Seal, Call::Send] {
        if draw.once_in(2) {
            file.push_str(&line(call, ""));
        }
    }
    if draw.once_in(3) {
        file.push_str(&drawn.open());
        for _ in 0..draw.between(1, 8) {
            file.push_str(&drawn.line(draw));
        }
    }
    file.into_bytes()
}
