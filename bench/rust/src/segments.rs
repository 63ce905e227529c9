//! The busy slots' segments, and the pick among them: one pass over the rows from the latest due slot to the earliest.

use crate::plan::{ahead_in, place_in, weight_in, Plan, OUTSIDE};

/// weight + φ × weight of the substitute, φ as a ratio of Fibonacci numbers: exact for weights up to 2²⁴.
#[inline(always)]
pub fn score(weight: u64, substitute: u64) -> u64 {
    weight * 39_088_169 + substitute * 63_245_986
}

/// The segments, the latest first.
pub struct Segments<const N: usize> {
    /// The tight slot, as slots ahead.
    pub end: [u16; N],
    /// The place of the heaviest member.
    pub heaviest: [u16; N],
    /// The weight of the lightest member.
    pub lightest: [u32; N],
    pub len: usize,
}

/// The plan member to send.
pub struct Pick {
    pub score: u64,
    pub key: u64,
    pub segment: usize,
    /// The substitute outside the plan; 0 for a blank.
    pub substitute: u64,
}

/// A segment while its rows are met.
struct Open {
    end: usize,
    heaviest: u64,
    lightest: u64,
}

impl Open {
    #[inline(always)]
    fn up_to(end: usize) -> Open {
        Open {
            end,
            heaviest: 0,
            lightest: u64::MAX,
        }
    }
}

impl<const N: usize> Segments<N> {
    #[inline(always)]
    pub fn none() -> Self {
        Segments {
            end: [0; N],
            heaviest: [0; N],
            lightest: [0; N],
            len: 0,
        }
    }

    /// Those of the plan, where there were none, and its pick.
    #[inline(always)]
    pub fn fill(&mut self, plan: &Plan<N>, busy: usize) -> Pick {
        let mut pick = Pick {
            score: 0,
            key: 0,
            segment: 0,
            substitute: 0,
        };
        let mut open = Open::up_to(busy - 1);
        let (mut kept, mut outside) = (busy, 0);
        for key in plan.keys() {
            let ahead = ahead_in(*key);
            if kept > ahead && ahead != open.end {
                self.close(&mut pick, &open, outside);
                open = Open::up_to(ahead);
            }
            if key & OUTSIDE != 0 {
                outside = outside.max(*key);
            } else {
                open.heaviest = open.heaviest.max(*key);
                open.lightest = open.lightest.min(*key);
                kept -= 1;
            }
        }
        let lightest = open.lightest;
        self.close(&mut pick, &open, lightest);
        pick
    }

    /// Among equals the earlier segment's member goes.
    #[inline(always)]
    fn close(&mut self, pick: &mut Pick, open: &Open, substitute: u64) {
        let substitute = substitute & !OUTSIDE;
        let score = score(weight_in(open.heaviest), weight_in(substitute));
        if score >= pick.score {
            *pick = Pick {
                score,
                key: open.heaviest,
                segment: self.len,
                substitute,
            };
        }
        let at = self.len % N;
        self.end[at] = open.end as u16;
        self.heaviest[at] = place_in(open.heaviest) as u16;
        self.lightest[at] = weight_in(open.lightest) as u32;
        self.len += 1;
    }
}
