//! Lines and files that are damaged, or were none to begin with.

use crate::call::Call;
use crate::compare::draw::Draw;
use crate::programs::rounds::{line, payload};

/// Bytes next to the digits, lower-case digits, line ends and binary.
const NEAR: &[u8] = b"/:@Gabcf`g \r\n\0\n\xFF\x80-";

/// One byte changed, taken out or put in.
pub fn damage(draw: &mut Draw, bytes: &mut Vec<u8>) {
    if bytes.is_empty() {
        return;
    }
    let at = draw.below(bytes.len() as u64) as usize;
    let byte = match draw.below(3) {
        0 => draw.number() as u8,
        1 => *draw.pick(b"0123456789ABCDEF"),
        _ => *draw.pick(NEAR),
    };
    match draw.below(5) {
        0 => {
            bytes.remove(at);
        }
        1 => bytes.insert(at, byte),
        _ => bytes[at] = byte,
    }
}

/// A line that is good but for one rule, at times good.
pub fn odd_line(draw: &mut Draw) -> Vec<u8> {
    let due = draw.between(0, 65_535);
    let weight = draw.number() as u32;
    let digits = payload(draw, 26);
    let class = draw.below(6);
    let text = match draw.below(22) {
        0 => format!("01{due:04X}{weight:08X}{digits}A\n"),
        1 => format!("01{due:04X}{weight:08X}{}\n", digits.to_lowercase()),
        2 => format!("00{due:04X}{digits}\n"),
        3 => format!("02{digits}\n"),
        4 => format!("00{:03X}\n", due % 4_096),
        5 => format!("01{due:04X}{:07X}\n", weight >> 4),
        6 => format!("{:02X}{due:04X}\n", draw.below(256)),
        7 => format!("{:02X}\n", draw.below(256)),
        8 => format!("{:X}\n", draw.below(16)),
        9 => format!("01{due:04X}{weight:08X}{digits}\r\n"),
        10 => format!(" 01{due:04X}{weight:08X}\n"),
        11 => format!("01{due:04X}{weight:08X}{digits} \n"),
        12 => format!("01{due:04X}{weight:08X}{digits}"),
        13 => format!("03{digits}\n"),
        14 => format!("04{due:04X}{weight:08X}\n"),
        15 => format!("04{due:04X}{weight:08X}{class:X}\n"),
        16 => format!("04{due:04X}{weight:08X}{class:02X}{digits}A\n"),
        17 => format!("04{due:04X}{weight:08X}{class:02x}{}\n", digits.to_lowercase()),
        18 => format!("04{due:04X}{weight:08X}{}{digits}\n", *draw.pick(&["0a", "g0", "0:", " 0"])),
        19 | 20 => format!("04{due:04X}{weight:08X}{class:02X}{digits}\n"),
        _ => line(Call::Take { due, weight }, &digits),
    };
    text.into_bytes()
}

/// Bytes without any plan.
pub fn noise(draw: &mut Draw) -> Vec<u8> {
    let from: &[u8] = match draw.below(4) {
        0 => &[],
        1 => b"0123456789ABCDEF\n",
        2 => b"0001020304\n\n",
        _ => NEAR,
    };
    let most = *draw.pick(&[4, 40, 400]);
    let byte = |_| match from {
        [] => draw.number() as u8,
        _ => *draw.pick(from),
    };
    (0..most).map(byte).collect()
}

/// A line of this many bytes, its end included: digits, zeros, NULs or any
/// byte but 0A.
pub fn long_line(draw: &mut Draw, length: usize) -> Vec<u8> {
    let start = *draw.pick(&[
        "01",
        "00",
        "02",
        "03",
        "04",
        "",
        "01000000000001",
        "0400000000000102",
    ]);
    let fill = draw.below(4);
    let mut line = start.as_bytes().to_vec();
    while line.len() + 1 < length {
        line.push(match fill {
            0 => b'0',
            1 => 0,
            2 => *draw.pick(b"0123456789ABCDEF"),
            _ => draw.between(11, 255) as u8,
        });
    }
    line.push(b'\n');
    line
}
