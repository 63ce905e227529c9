//! Faults of leaps, and of what a sending leaves.

use super::Entry;
use crate::leap::{kept_blank, leap, shifted, Leap};
use crate::order::{heaviest_first, Item};
use crate::plan::Plan;
use crate::send::{send, Out, Step};
use crate::tight::mark;

pub const FAULTS: &[Entry] = &[
    ("RNotRaised", "r keeps its weight", |rules| {
        rules.planning.leap =
            |plan, p, r| changed(leap(plan, p, r), |leap| leap.raised.weight = r.weight);
    }),
    ("HNotRaised", "each h keeps its weight", |rules| {
        rules.planning.leap = |plan, p, r| {
            changed(leap(plan, p, r), |leap| {
                leap.shifted.iter_mut().for_each(|h| h.weight = h.of.weight);
            })
        };
    }),
    ("HSetToMark", "each h gets the mark even when it weighs more", |rules| {
        rules.planning.leap = |plan, p, r| {
            changed(leap(plan, p, r), |leap| {
                leap.shifted
                    .iter_mut()
                    .for_each(|h| h.weight = plan.mark(h.due));
            })
        };
    }),
    ("HNotShifted", "no h is shifted", |rules| {
        rules.planning.leap = |plan, p, r| changed(leap(plan, p, r), |leap| leap.shifted.clear());
    }),
    ("OneShiftOnly", "only the first h is shifted", |rules| {
        rules.planning.leap =
            |plan, p, r| changed(leap(plan, p, r), |leap| leap.shifted.truncate(1));
    }),
    ("HLightest", "h is the lightest member, not the heaviest", |rules| {
        rules.planning.leap = |plan, p, r| {
            let mut turned = plan.rules.clone();
            turned.planning.heaviest_first = |a, b| heaviest_first(b, a);
            let turned = Plan {
                rules: &turned,
                ..plan.clone()
            };
            changed(leap(plan, p, r), |leap| leap.shifted = shifted(&turned, p, r))
        };
    }),
    ("MarksAfterShift", "marks are taken anew after each shift", |rules| {
        rules.planning.leap = |plan, p, r| changed(leap(plan, p, r), |leap| mark_anew(plan, leap));
    }),
    ("LeapChangesNothing", "in a leap p leaves and nothing else changes", |rules| {
        rules.planning.leap = |plan, p, r| {
            changed(leap(plan, p, r), |leap| {
                leap.shifted.clear();
                leap.raised.weight = r.weight;
                leap.kept = None;
            })
        };
    }),
    ("BlankDropped", "a raised blank is not kept", |rules| {
        rules.planning.leap = |plan, p, r| changed(leap(plan, p, r), |leap| leap.kept = None);
    }),
    ("BlankKeptAtZero", "a blank is kept even at mark 0", |rules| {
        rules.planning.leap = |plan, p, r| {
            changed(leap(plan, p, r), |leap| {
                if r.ticket.is_none() {
                    leap.kept = kept_blank(p, r.due, plan.mark(r.due));
                }
            })
        };
    }),
    ("KeptBlankDueAsSent", "a kept blank keeps p's due slot", |rules| {
        rules.planning.leap = |plan, p, r| {
            changed(leap(plan, p, r), |leap| {
                leap.kept.iter_mut().for_each(|kept| kept.due = p.due);
            })
        };
    }),
    ("KeptBlankAsFrame", "a kept blank is stored as a frame", |rules| {
        rules.planning.leap = |plan, p, r| {
            changed(leap(plan, p, r), |leap| {
                leap.kept.iter_mut().for_each(|kept| kept.kept = false);
            })
        };
    }),
    ("KeptBlankSentAsFrame", "a kept blank goes out as a frame", |rules| {
        rules.calls.send = |rules, table| {
            Ok(match send(rules, table)? {
                Step::Ordinary(out) => Step::Ordinary(as_frame(out)),
                Step::Leap(out) => Step::Leap(as_frame(out)),
            })
        };
    }),
    ("LateRowsStay", "rows due before the new slot stay", |rules| {
        rules.planning.is_late = |_, _| false;
    }),
];

fn changed(mut leap: Leap, change: impl FnOnce(&mut Leap)) -> Leap {
    change(&mut leap);
    leap
}

/// Each mark over the members as the shifts before have changed them.
fn mark_anew(plan: &Plan, leap: &mut Leap) {
    let mut later = plan.clone();
    for h in &mut leap.shifted {
        h.weight = h.of.weight.max(mark(&later, h.due));
        let own = |item: &&mut Item| item.ticket == h.of.ticket;
        for item in later.members.iter_mut().filter(own) {
            (item.due, item.weight) = (h.due, h.weight);
        }
    }
    leap.raised.weight = mark(&later, leap.raised.due);
}

fn as_frame(out: Out) -> Out {
    match out {
        Out::KeptBlank(ticket) => Out::Frame(ticket),
        _ => out,
    }
}
