//! What trial reads and prints, by tests/trial.md.

use second::compare::draw::Draw;
use second::programs::requests::KINDS;
use second::programs::trial::Request;
use second::rules::Rules;

/// Numbers of 4 bytes, then bytes.
fn bytes(numbers: &[u32], rest: &[u8]) -> Vec<u8> {
    let numbers = numbers.iter().flat_map(|number| number.to_le_bytes());
    numbers.chain(rest.iter().copied()).collect()
}

/// The outcome of a request by hand.
fn outcome(head: &[u32; 7], body: &[u8]) -> Vec<u8> {
    let given = bytes(head, body);
    let (request, rest) = Request::first(&given).expect("a request");
    assert!(rest.is_empty());
    assert_eq!(request.bytes(), given);
    request.outcome(Rules::PAPERS)
}

#[test]
fn lists() {
    let table = second::hand::table(2, 1, &[(1, 1, 7, Some(0)), (3, 0, 5, None)]);
    let untouched = [0xEEEE_EEEE, 0xDDDD_DDDD, 0xCCCC_CCCC];
    let listed = outcome(&[0, 64, 3, 0, 0, 0, 0], &table);
    let wanted = [[0, 2, 3].as_slice(), &[0, 5, 1, 1, 7], &untouched].concat();
    assert_eq!(listed, bytes(&wanted, b""));
    let short = outcome(&[0, 64, 1, 0, 0, 0, 0], &table);
    let wanted = [[12, 0].as_slice(), &untouched].concat();
    assert_eq!(short, bytes(&wanted, b""));
}

#[test]
fn writes() {
    let wrote = outcome(&[1, 2, 18, 1, 0xABC, 9, 0], b"5F");
    assert_eq!(wrote, bytes(&[0, 17], b"010ABC000000095F\n*"));
    let refused = outcome(&[1, 2, 4, 2, 0, 0, 0], b"5F");
    assert_eq!(refused, bytes(&[1, 0], b"****"));
    let sealed = outcome(&[1, 0, 4, 3, 0, 0, 0], b"");
    assert_eq!(sealed, bytes(&[0, 3], b"03\n*"));
    let classed = outcome(&[1, 2, 20, 4, 0xABC, 9, 0x2A], b"5F");
    assert_eq!(classed, bytes(&[0, 19], b"040ABC000000092A5F\n*"));
    let refused = outcome(&[1, 0, 3, 4, 0xABC, 9, 0x100], b"");
    assert_eq!(refused, bytes(&[1, 0], b"***"));
}

#[test]
fn reads() {
    let read = outcome(&[2, 17, 0, 0, 0, 0, 0], b"010ABC000000095F\n");
    assert_eq!(read, bytes(&[0, 1, 0xABC, 9, 0, 14, 16, 2], b"5F"));
    let sealed = outcome(&[2, 3, 0, 0, 0, 0, 0], b"03\n");
    assert_eq!(sealed, bytes(&[0, 3, 0, 0, 0, 0, 0, 0], b""));
    let classed = outcome(&[2, 19, 0, 0, 0, 0, 0], b"040ABC00000009FF5F\n");
    assert_eq!(classed, bytes(&[0, 4, 0xABC, 9, 255, 16, 18, 2], b"5F"));
    let refused = outcome(&[2, 3, 0, 0, 0, 0, 0], b"04\n");
    assert_eq!(refused, bytes(&[1, 0, 0, 0, 0, 0, 0, 0], b""));
}

#[test]
fn ends_at_a_bad_head() {
    let heads: [[u32; 7]; 4] = [
        [3, 0, 0, 0, 0, 0, 0],
        [0, 24_641, 0, 0, 0, 0, 0],
        [0, 0, 1_025, 0, 0, 0, 0],
        [1, 0, 0, 5, 0, 0, 0],
    ];
    for head in heads {
        assert_eq!(Request::first(&bytes(&head, &[0; 24_641])), None);
    }
    let cut = bytes(&[2, 3, 0, 0, 0, 0, 0], b"02");
    assert_eq!(Request::first(&cut), None);
    assert_eq!(Request::first(&cut[..27]), None);
}

/// Each drawn request is read back as it was.
#[test]
fn requests_are_read_back() {
    for kind in KINDS {
        for number in 0..20 {
            let request = (kind.case)(&mut Draw::new(number), number);
            assert_eq!(Request::first(&request.bytes()), Some((request, &[][..])));
        }
    }
}
