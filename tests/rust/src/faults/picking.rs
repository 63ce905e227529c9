//! Faults of the orders, the substitutes and the pick.

use super::Entry;
use crate::counts::Slot;
use crate::golden::{compare, Score};
use crate::order::Item;
use crate::substitute::{substitute, Substitutes};

pub const FAULTS: &[Entry] = &[
    ("TiesByTicket", "heavier compares the ticket before the due slot", |rules| {
        rules.planning.heaviest_first = |a, b| {
            let heavier = b.weight.cmp(&a.weight).then(a.ticket.cmp(&b.ticket));
            heavier.then(a.due.cmp(&b.due))
        };
    }),
    ("TiesByLateDue", "among equal weights the later due slot is heavier", |rules| {
        rules.planning.heaviest_first = |a, b| {
            let heavier = b.weight.cmp(&a.weight).then(b.due.cmp(&a.due));
            heavier
                .then(a.class.cmp(&b.class))
                .then(a.ticket.cmp(&b.ticket))
        };
    }),
    ("TiesByLateTicket", "among equals the larger ticket is heavier", |rules| {
        rules.planning.heaviest_first = |a, b| {
            let heavier = b.weight.cmp(&a.weight).then(a.due.cmp(&b.due));
            heavier
                .then(a.class.cmp(&b.class))
                .then(b.ticket.cmp(&a.ticket))
        };
    }),
    ("PicksLastOfEquals", "among equal picks the canonical last goes", |rules| {
        rules.planning.beats = |a, b| compare(a, b).is_ge();
    }),
    ("PhiAsF32", "φ is worked in 32-bit floats", |rules| {
        rules.planning.beats = |a, b| as_f32(a) > as_f32(b);
    }),
    ("PhiLeftOut", "the substitute counts once, not φ times", |rules| {
        rules.planning.beats = |a, b| plain(a) > plain(b);
    }),
    ("PhiOnOwnWeight", "φ stands on the member's own weight", |rules| {
        rules.planning.beats = |a, b| compare(turned(a), turned(b)).is_gt();
    }),
    ("SubstituteNotCounted", "the heaviest plan member goes", |rules| {
        rules.planning.beats = |a, b| a.own > b.own;
    }),
    ("EarliestDueSent", "the canonical first goes", |rules| {
        rules.planning.beats = |_, _| false;
    }),
    ("FirstSubstituteIsOwn", "in the first segment each is its own substitute", |rules| {
        rules.planning.substitute = |of, member| match member.due <= of.first_end {
            true => member,
            false => substitute(of, member),
        };
    }),
    ("SubstituteFromAnywhere", "a substitute may be due in any slot", |rules| {
        rules.planning.substitute = |of, member| {
            let any = i64::from(of.plan.slot.0) - 1;
            later(of, member, of.heaviest_after(any))
        };
    }),
    ("SubstituteFromOwnDue", "a substitute is due from the member's own due slot on", |rules| {
        rules.planning.substitute = |of, member| {
            let own = i64::from(member.due.0) - 1;
            later(of, member, of.heaviest_after(own))
        };
    }),
    ("SubstituteAlwaysBlank", "waiting rows are no substitutes", |rules| {
        rules.planning.substitute = |of, member| {
            let due = of.plan.tight_before(member.due) + 1;
            later(of, member, Item::blank(Slot(due as u32)))
        };
    }),
];

/// In later segments another substitute.
fn later(of: &Substitutes, member: Item, other: Item) -> Item {
    match member.due <= of.first_end {
        true => substitute(of, member),
        false => other,
    }
}

fn as_f32(score: Score) -> f32 {
    let phi = (1.0 + 5.0_f32.sqrt()) / 2.0;
    score.own.0 as f32 + phi * score.substitute.0 as f32
}

fn plain(score: Score) -> u64 {
    u64::from(score.own.0) + u64::from(score.substitute.0)
}

fn turned(score: Score) -> Score {
    Score {
        own: score.substitute,
        substitute: score.own,
    }
}
