//! Changes of lists of clauses and of reasons.

use crate::refusal::Refusal;
use crate::rules::{Clause, Clauses};
use std::borrow::Cow;

type Order<Test> = Cow<'static, [(Refusal, Test)]>;

/// Leaves a clause out.
pub fn waive(clauses: &mut Clauses, name: &str) {
    let place = place(clauses, |clause| clause.0 == name);
    clauses.to_mut().remove(place);
}

/// Puts another clause in the place of one.
pub fn clause(clauses: &mut Clauses, name: &str, holds: fn(&[u8]) -> bool) {
    let place = place(clauses, |clause: &Clause| clause.0 == name);
    clauses.to_mut()[place].1 = holds;
}

/// Lets a reason to refuse apply in other cases.
pub fn reason<Test: Clone>(order: &mut Order<Test>, refusal: Refusal, applies: Test) {
    let place = place(order, |reason| reason.0 == refusal);
    order.to_mut()[place].1 = applies;
}

/// Checks a reason just before an earlier one.
pub fn before<Test: Clone>(order: &mut Order<Test>, refusal: Refusal, other: Refusal) {
    let from = place(order, |reason| reason.0 == refusal);
    let to = place(order, |reason| reason.0 == other);
    order.to_mut()[to..=from].rotate_right(1);
}

/// Checks one more reason just before another.
pub fn one_more<Test: Clone>(
    order: &mut Order<Test>,
    (refusal, applies): (Refusal, Test),
    other: Refusal,
) {
    let place = place(order, |reason| reason.0 == other);
    order.to_mut().insert(place, (refusal, applies));
}

fn place<T>(list: &[T], is_it: impl Fn(&T) -> bool) -> usize {
    list.iter().position(is_it).expect("it is in the list")
}
