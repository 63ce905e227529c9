//! The substitutes of plan members.

use crate::counts::Slot;
use crate::order::Item;
use crate::plan::Plan;

/// Everything needed to tell any member's substitute.
pub struct Substitutes<'a> {
    pub plan: &'a Plan<'a>,
    pub first_end: Slot,
    /// The lightest plan member due by the first segment's end.
    lightest: Item,
    /// For each slot from the current on, the heaviest row or blank outside
    /// the plan that is due there or later.
    heaviest_from: Vec<Item>,
}

impl<'a> Substitutes<'a> {
    pub fn of(plan: &'a Plan<'a>) -> Substitutes<'a> {
        let first_end = plan.first_end();
        Substitutes {
            plan,
            first_end,
            lightest: lightest_by(plan, first_end),
            heaviest_from: heaviest_from(plan),
        }
    }

    /// The substitute of a plan member.
    pub fn of_member(&self, member: Item) -> Item {
        (self.plan.rules.planning.substitute)(self, member)
    }

    /// The heaviest waiting row or blank outside the plan that is due after
    /// this slot, which may be the one before the current.
    pub fn heaviest_after(&self, slot: i64) -> Item {
        self.heaviest_from[(slot + 1 - i64::from(self.plan.slot.0)) as usize]
    }
}

/// For a member due by a the lightest plan member due by a, for any other the
/// heaviest outside the plan due after the last tight slot before its due slot.
pub fn substitute(of: &Substitutes, member: Item) -> Item {
    match member.due <= of.first_end {
        true => of.lightest,
        false => of.heaviest_after(of.plan.tight_before(member.due)),
    }
}

/// The lightest plan member due by this slot.
fn lightest_by(plan: &Plan, by: Slot) -> Item {
    let due_by = plan.members.iter().filter(|item| item.due <= by);
    let lightest = due_by.max_by(|a, b| plan.rules.heaviest_first(a, b));
    *lightest.expect("a plan fills its first segment")
}

fn heaviest_from(plan: &Plan) -> Vec<Item> {
    let slots = plan.slot.0..=plan.last.0;
    let mut heaviest: Vec<Item> = slots.map(|s| Item::blank(Slot(s))).collect();
    let heavier = |a: &Item, b: &Item| plan.rules.heaviest_first(a, b).is_lt();
    for item in &plan.outside {
        let best = &mut heaviest[(item.due.0 - plan.slot.0) as usize];
        if heavier(item, best) {
            *best = *item;
        }
    }
    for place in (1..heaviest.len()).rev() {
        if heavier(&heaviest[place], &heaviest[place - 1]) {
            heaviest[place - 1] = heaviest[place];
        }
    }
    heaviest
}
