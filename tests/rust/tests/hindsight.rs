//! The check of what hindsight could have gained: it holds of the second
//! implementation, and notices each fault.

use second::ending::Named;
use second::hindsight::check::check;
use second::hindsight::fault::FAULTS;
use second::hindsight::kinds::rounds;
use second::rules::Rules;

const FACTOR: f64 = 0.02;

#[test]
fn holds_on_every_kind() {
    let (mut gains, mut sealed) = (0, 0);
    for round in rounds(3, FACTOR) {
        let (kind, number) = (round.kind, round.number);
        let found = check(Rules::PAPERS, &round.script);
        let found = found.unwrap_or_else(|wrong| panic!("{kind} {number}: {wrong}"));
        gains += usize::from(found.gain.best > found.gain.sent);
        sealed += usize::from(found.sealed);
    }
    assert!(gains > 500 && sealed > 500);
}

#[test]
fn catches_every_fault() {
    for fault in FAULTS {
        let shown = fault.shown(Rules::PAPERS);
        let is_seen = rounds(3, FACTOR).any(|round| shown(&round.script).is_some());
        assert!(is_seen, "{}", fault.says());
    }
}
