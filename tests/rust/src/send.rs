//! Sending a slot.

use crate::counts::{Slot, Ticket};
use crate::golden::Score;
use crate::order::Item;
use crate::plan::Plan;
use crate::reasons::Asked;
use crate::refusal::Refusal;
use crate::round::{Round, Row};
use crate::rules::Rules;
use crate::substitute::Substitutes;
use crate::table::encode;

/// What went out.
#[derive(Clone, Copy, PartialEq, Eq, Debug)]
pub enum Out {
    Silence,
    Frame(Ticket),
    KeptBlank(Ticket),
}

/// Ordinary or leap, and inside that what went out.
#[derive(Clone, Copy, PartialEq, Eq, Debug)]
pub enum Step {
    Ordinary(Out),
    Leap(Out),
}

pub fn send(rules: &Rules, table: &mut [u8]) -> Result<Step, Refusal> {
    let mut round = Asked::new(rules, table, ()).accepted(&rules.reasons.send)?;
    let plan = Plan::of(&round, rules);
    let step = step(&plan, &mut round);
    encode(&round, table);
    Ok(step)
}

/// Sends the current slot of a round with this plan.
fn step(plan: &Plan, round: &mut Round) -> Step {
    let substitutes = Substitutes::of(plan);
    let p = (plan.rules.planning.goes)(round, &substitutes);
    let out = what_goes_out(round, p);
    let is_leap = p.due > plan.first_end();
    if is_leap {
        let leap = (plan.rules.planning.leap)(plan, p, substitutes.of_member(p));
        leap.changes(round, p);
    } else {
        round.leaves(p);
    }
    next_slot(plan.rules, round);
    match is_leap {
        true => Step::Leap(out),
        false => Step::Ordinary(out),
    }
}

/// In a sealed round the plan's canonical first, a blank or a row, otherwise
/// PlanM's pick.
pub fn goes(round: &Round, substitutes: &Substitutes) -> Item {
    match round.sealed {
        true => substitutes.plan.members[0],
        false => pick(substitutes),
    }
}

/// The plan member with the greatest weight + φ × weight of its substitute;
/// among equals the canonical first. The members stand in canonical order.
pub fn pick(substitutes: &Substitutes) -> Item {
    let plan = substitutes.plan;
    let scored = |member: &Item| Scored {
        member: *member,
        score: Score {
            own: member.weight,
            substitute: substitutes.of_member(*member).weight,
        },
    };
    let mut best = scored(&plan.members[0]);
    for other in plan.members[1..].iter().map(scored) {
        if (plan.rules.planning.beats)(other.score, best.score) {
            best = other;
        }
    }
    best.member
}

struct Scored {
    member: Item,
    score: Score,
}

fn what_goes_out(round: &Round, p: Item) -> Out {
    match p.ticket.and_then(|ticket| round.place(ticket)) {
        None => Out::Silence,
        Some(place) if round.rows[place].kept => Out::KeptBlank(round.rows[place].ticket),
        Some(place) => Out::Frame(round.rows[place].ticket),
    }
}

/// The current slot rises by 1 and rows due before it leave.
fn next_slot(rules: &Rules, round: &mut Round) {
    let slot = Slot(round.slot.0 + 1);
    round.slot = slot;
    round
        .rows
        .retain(|row| !(rules.planning.is_late)(row, slot));
}

pub fn is_late(row: &Row, slot: Slot) -> bool {
    row.due < slot
}
