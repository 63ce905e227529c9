//! The program stationround, and document 01's sample through it.

use second::programs::process;
use second::rules::Rules;
use std::path::Path;

const SAMPLE: &str = "000001\n01000000000004\n0100010000000B\n02\n02\n";
const ANSWER: &str = "00\n0100000001\n0100000002\n02010100000002\n02020000000002\n";

/// What the function prints.
fn printed(input: &[u8]) -> String {
    Rules::PAPERS.printed(input)
}

/// What the program itself prints.
fn run(input: &[u8]) -> String {
    let program = Path::new(env!("CARGO_BIN_EXE_second_stationround"));
    let output = process::run(program, input).expect("it runs");
    assert_eq!(process::ended_well(&output), Ok(()));
    String::from_utf8(output.stdout).expect("digits")
}

/// Both the program and the function give this output.
fn prints(input: &str, output: &str) {
    assert_eq!(printed(input.as_bytes()), output, "{input:?}");
    assert_eq!(run(input.as_bytes()), output, "{input:?}");
}

#[test]
fn sample() {
    prints(SAMPLE, ANSWER);
}

#[test]
fn named_replies() {
    prints("", "");
    prints("02\n", "FF03\n");
    prints("000000\n02\n02\n", "00\n02000000000000\nFF05\n");
    prints("000FFF\n001000\n00FFFF\n", "00\nFF04\nFF04\n");
    prints("000001\n01000001000000\n01000001000001\n", "00\n0100000001\nFF06\n");
    prints("000001\n01000200000001\n01000200000000\n", "00\nFF07\nFF06\n");
}

#[test]
fn sealed_rounds() {
    let frames = "01000000000004\n0100010000000B\n";
    let tickets = "0100000001\n0100000002\n";
    prints(
        &format!("000001\n{frames}03\n01000100000014\n02\n03\n02\n02\n03\n"),
        &format!("00\n{tickets}03\nFF0D\n02010000000001\n03\n02010000000002\nFF05\nFF05\n"),
    );
    prints(
        "000002\n01000100000005\n01000200000007\n03\n02\n02\n02\n",
        &format!("00\n{tickets}03\n02000000000000\n02010000000001\n02010000000002\n"),
    );
    prints("03\n000000\n03\n000000\n01000000000001\n", "FF03\n00\n03\n00\n0100000001\n");
}

#[test]
fn classes() {
    prints(
        "000001\n0400010000000501\n01000100000005\n04000100000005025F\n02\n02\n",
        "00\n0100000001\n0100000002\n0100000003\n02010000000002\n02010000000001\n",
    );
    prints(
        "000001\n0400010000000504\n04000100000005FF\n0400020000000504\n0400010000000503\n",
        "00\nFF0E\nFF0E\nFF07\n0100000001\n",
    );
    prints("000001\n03\n0400010000000504\n040001000000050\n02\n", "00\n03\nFF0D\nFF01\n");
}

#[test]
fn stops_after_refusal_1() {
    prints("\n", "FF01\n");
    prints("000000\n\n02\n", "00\nFF01\n");
    prints("000000\n02", "00\nFF01\n");
    prints("000000\n04\n02\n", "00\nFF01\n");
    prints("000000\n05\n02\n", "00\nFF01\n");
    prints("000000\n0300\n02\n", "00\nFF01\n");
    prints("000000\n03", "00\nFF01\n");
    prints("000000\r\n02\n", "FF01\n");
    prints("00000a\n02\n", "FF01\n");
}

#[test]
fn the_table_has_1024_rows() {
    let mut input = "000FFF\n".to_string();
    input.push_str(&"01000000000001\n".repeat(1_025));
    let output = printed(input.as_bytes());
    assert!(output.ends_with("0100000400\nFF09\n"));
}
