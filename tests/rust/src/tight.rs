//! Tight slots, segments and marks of a plan.

use crate::counts::{Slot, Weight};
use crate::order::Item;
use crate::plan::Plan;

impl Plan<'_> {
    /// The first tight slot at or after this one. The last slot is tight.
    pub fn tight_from(&self, slot: Slot) -> Slot {
        let wanted = i64::from(slot.0);
        let place = self.tight.partition_point(|tight| *tight < wanted);
        Slot(self.tight[place] as u32)
    }

    /// The last tight slot before this one, which may be the slot before the
    /// current.
    pub fn tight_before(&self, slot: Slot) -> i64 {
        let wanted = i64::from(slot.0);
        let place = self.tight.partition_point(|tight| *tight < wanted);
        self.tight[place - 1]
    }

    /// Slot a: the end of the first segment.
    pub fn first_end(&self) -> Slot {
        self.tight_from(self.slot)
    }

    pub fn mark(&self, slot: Slot) -> Weight {
        (self.rules.planning.mark)(self, slot)
    }

    /// The smallest weight in the plan due from one slot to another.
    pub fn smallest(&self, from: i64, to: Slot) -> Weight {
        let there = |item: &&Item| i64::from(item.due.0) >= from && item.due <= to;
        let weights = self.members.iter().filter(there).map(|item| item.weight);
        weights.min().unwrap_or(Weight(0))
    }

    /// The heaviest plan member due after one slot and by another, which is
    /// tight.
    pub fn heaviest_between(&self, after: Slot, by: Slot) -> Item {
        let there = |item: &&Item| item.due > after && item.due <= by;
        let found = self.members.iter().filter(there);
        let heaviest = found.min_by(|a, b| self.rules.heaviest_first(a, b));
        *heaviest.expect("each segment has a member")
    }
}

/// The mark: the smallest weight in the plan due by the first tight slot at or
/// after this one.
pub fn mark(plan: &Plan, slot: Slot) -> Weight {
    plan.smallest(i64::from(plan.slot.0), plan.tight_from(slot))
}
