//! Reading and writing text lines, each undoing the other.

use second::command::Command;
use second::compare::draw::Draw;
use second::counts::{Class, Slot, Weight};
use second::refusal::Refusal;
use second::rules::Rules;

const SECOND: &Rules = Rules::PAPERS;

fn take(due: u32, weight: u32) -> Command {
    Command::Take {
        due: Slot(due),
        weight: Weight(weight),
    }
}

fn classed(due: u32, weight: u32, class: u32) -> Command {
    Command::TakeClass {
        due: Slot(due),
        weight: Weight(weight),
        class: Class(class),
    }
}

#[test]
fn good_lines() {
    assert_eq!(SECOND.read(b"000ABC\n"), Ok(Command::Open { last: Slot(0xABC) }));
    assert_eq!(SECOND.read(b"00FFFF\n"), Ok(Command::Open { last: Slot(0xFFFF) }));
    assert_eq!(SECOND.read(b"02\n"), Ok(Command::Send));
    assert_eq!(SECOND.read(b"03\n"), Ok(Command::Seal));
    assert_eq!(SECOND.read(b"01FFFFFFFFFFFF\n"), Ok(take(0xFFFF, 0xFFFF_FFFF)));
    let longest = format!("010001000000FF{}\n", "A5".repeat(24));
    assert_eq!(SECOND.read(longest.as_bytes()), Ok(take(1, 255)));
    assert_eq!(SECOND.read(b"04000100000005FF\n"), Ok(classed(1, 5, 255)));
    assert_eq!(SECOND.read(b"0400010000000500\n"), Ok(classed(1, 5, 0)));
    let longest = format!("040001000000FF02{}\n", "A5".repeat(24));
    assert_eq!((longest.len(), SECOND.read(longest.as_bytes())), (65, Ok(classed(1, 255, 2))));
}

#[test]
fn broken_lines() {
    let too_long = format!("010001000000FF{}\n", "A5".repeat(25));
    let too_long_04 = format!("040001000000FF02{}\n", "A5".repeat(25));
    let lines: [&[u8]; 26] = [
        b"",
        b"\n",
        b"0\n",
        b"02",
        b"02\n\n",
        b"02\n0",
        b"02 \n",
        b"2\n",
        b"03",
        b"0300\n",
        b"04\n",
        b"00000\n",
        b"0000000\n",
        b"0100010000000\n",
        b"01000100000001A\n",
        b"01000100000001ab\n",
        b"00\n0001\n",
        too_long.as_bytes(),
        b"05\n",
        b"04000100000001\n",
        b"040001000000010\n",
        b"040001000000010g\n",
        b"040001000000010a\n",
        b"0400010000000102A\n",
        b"0400010000000102",
        too_long_04.as_bytes(),
    ];
    for line in lines {
        assert_eq!(SECOND.read(line), Err(Refusal::Line), "{line:?}");
        assert_eq!(SECOND.payload_place(line), (0, 0));
    }
}

#[test]
fn the_payload_is_a_part_of_the_line() {
    let line = b"0100000000000400000004\n";
    assert_eq!(SECOND.payload_place(line), (14, 22));
    assert_eq!(SECOND.payload(line).as_ptr(), line[14..].as_ptr());
    let bare = b"01000000000004\n";
    assert_eq!(SECOND.payload_place(bare), (0, 0));
    assert_eq!(SECOND.payload(bare).as_ptr(), bare.as_ptr());
    let classed = b"040000000000040300000004\n";
    assert_eq!(SECOND.payload_place(classed), (16, 24));
    assert_eq!(SECOND.payload(classed).as_ptr(), classed[16..].as_ptr());
    assert_eq!(SECOND.payload_place(b"0400000000000403\n"), (0, 0));
    assert_eq!(SECOND.payload_place(b"02\n"), (0, 0));
    assert_eq!(SECOND.payload_place(b"03\n"), (0, 0));
}

#[test]
fn the_writer_refuses_1_before_12() {
    let mut buffer = [7; 63];
    let long = [b'A'; 50];
    let refused: [(Command, &[u8]); 13] = [
        (
            Command::Open {
                last: Slot(0x10000),
            },
            b"",
        ),
        (take(0x10000, 1), b""),
        (Command::Open { last: Slot(1) }, b"00"),
        (Command::Send, b"00"),
        (Command::Seal, b"00"),
        (take(1, 1), b"0"),
        (take(1, 1), b"0a"),
        (take(1, 1), &long),
        (classed(0x10000, 1, 1), b""),
        (classed(1, 1, 0x100), b""),
        (classed(1, 1, 1), b"0"),
        (classed(1, 1, 1), b"0a"),
        (classed(1, 1, 1), &long),
    ];
    for (command, digits) in refused {
        assert_eq!(SECOND.write(command, digits, &mut buffer), Err(Refusal::Line));
        assert_eq!(SECOND.write(command, digits, &mut []), Err(Refusal::Line));
    }
    assert_eq!(SECOND.write(take(1, 0), b"", &mut buffer[..14]), Err(Refusal::Short));
    assert_eq!(SECOND.write(classed(1, 0, 255), b"", &mut buffer[..16]), Err(Refusal::Short));
    assert_eq!(SECOND.write(Command::Send, b"", &mut buffer[..2]), Err(Refusal::Short));
    assert_eq!(SECOND.write(Command::Seal, b"", &mut buffer[..2]), Err(Refusal::Short));
    assert_eq!(buffer, [7; 63]);
}

/// A drawn command with payload digits that can stand in a line.
fn drawn(draw: &mut Draw) -> (Command, Vec<u8>) {
    let slot = Slot(draw.below(0x10000) as u32);
    let bytes = draw.below(25);
    let digits = (0..2 * bytes)
        .map(|_| *draw.pick(b"0123456789ABCDEF"))
        .collect();
    let weight = draw.number() as u32;
    match draw.below(5) {
        0 => (Command::Open { last: slot }, Vec::new()),
        1 => (Command::Send, Vec::new()),
        2 => (Command::Seal, Vec::new()),
        3 => (classed(slot.0, weight, draw.between(0, 255)), digits),
        _ => (take(slot.0, weight), digits),
    }
}

#[test]
fn each_undoes_the_other() {
    let mut draw = Draw::new(5);
    for _ in 0..20_000 {
        let (command, digits) = drawn(&mut draw);
        let mut buffer = [b'x'; 70];
        let length = SECOND
            .write(command, &digits, &mut buffer)
            .expect("it can stand in a line");
        assert!(buffer[length..].iter().all(|byte| *byte == b'x'));
        let line = &buffer[..length];
        assert_eq!((SECOND.read(line), SECOND.payload(line)), (Ok(command), &digits[..]));
        let mut changed = line.to_vec();
        let at = draw.below(length as u64) as usize;
        changed[at] = *draw.pick(b"0123456789ABCDEFGabf\n /:@`");
        if let Ok(command) = SECOND.read(&changed) {
            let mut again = [0; 70];
            let length = SECOND
                .write(command, SECOND.payload(&changed), &mut again)
                .expect("it was read");
            assert_eq!(again[..length], changed);
        }
    }
}
