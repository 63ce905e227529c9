//! Rows due in each slot, and what their numbers alone tell.
//!
//! Summed up to a slot, the numbers here are `OVER` × (rows due by it − slots up to it) + slots up to it. Where rows
//! and slots are as many, the sum is the number of slots; the greatest sum tells how many are left out, and where.

const OVER: i32 = 2_048;

/// One place in what `starts` gives, from its low bits up: the slots ahead in ten bits; a place in ten; two for a class, both set; and
/// 1,023 less the slots ahead.
pub const STEP: u32 = 1 << 10;
pub const CLASS_STEP: u32 = STEP << 10;
const EARLIER: u32 = CLASS_STEP << 2;
const PLACES: u32 = 1 << 10;

/// What is added to a start for the next slot if half a count, which is a step for each row less one, is taken from it.
const NEXT_START: u32 = 1_u32.wrapping_sub(EARLIER).wrapping_sub(STEP);

/// What a slot's count begins with.
pub const NONE_DUE: i32 = 1 - OVER;

/// Rows due so many slots ahead, in an array of `NONE_DUE` lent by the call, which so is never moved. Those due N ahead or
/// later are not counted: n rows need no more than n slots.
pub struct Counts<'a, const N: usize>(pub &'a mut [i32; N]);

/// What the counts tell of the plan.
pub struct Load {
    /// Rows that the plan leaves out.
    pub left_out: usize,
    /// So many slots from the current one on are filled by rows due in them. A row due later is in the plan, and the
    /// mark of a later slot is 0.
    pub busy: usize,
}

/// A segment: its first slot and its last, the tight one, as slots ahead.
pub struct Segment {
    pub start: usize,
    pub end: usize,
}

impl<const N: usize> Counts<'_, N> {
    #[inline(always)]
    pub fn add(&mut self, ahead: usize) {
        if let Some(count) = self.0.get_mut(ahead) {
            *count += OVER;
        }
    }

    /// Rows due so many slots ahead.
    #[inline(always)]
    pub fn at(&self, ahead: usize) -> usize {
        rows(self.0[ahead % N])
    }

    /// Of so many used rows.
    #[inline(always)]
    pub fn load(&self, used: usize) -> Load {
        let (mut sum, mut most) = (0, 0);
        for count in &self.0[..used] {
            sum += count;
            most = sum.max(most);
        }
        Load {
            left_out: (most / OVER) as usize,
            busy: (most % OVER) as usize,
        }
    }

    /// The segment of a busy slot when nothing is left out: a slot is tight if the sum up to it is positive.
    #[inline(always)]
    pub fn segment(&self, ahead: usize) -> Segment {
        let before = self.0[..ahead].iter().sum();
        let (mut start, mut sum): (usize, i32) = (ahead % N, before);
        while start > 0 && sum <= 0 {
            start -= 1;
            sum -= self.0[start];
        }
        let end = self.tight_from(ahead, before);
        Segment { start, end }
    }

    /// The first tight slot from this one on when nothing is left out.
    #[inline(always)]
    pub fn tight(&self, ahead: usize) -> usize {
        self.tight_from(ahead, self.0[..ahead].iter().sum())
    }

    #[inline(always)]
    fn tight_from(&self, ahead: usize, mut sum: i32) -> usize {
        for (steps, count) in self.0[ahead..].iter().enumerate() {
            sum += count;
            if sum > 0 {
                return ahead + steps;
            }
        }
        ahead
    }

    /// After the rows were put in their places from `starts` on: the last place taken by rows due up to this busy slot.
    /// If none is, it is N; if all are, a multiple of N.
    #[inline(always)]
    pub fn last_place(&self, ahead: usize) -> usize {
        (self.0[ahead] as u32 / STEP % PLACES + 1) as usize
    }

    /// In place of each busy slot's count, the first place of its rows in due order from N − 1 down, in steps, with the slots ahead.
    #[inline(always)]
    pub fn starts(&mut self, busy: usize) -> &mut [i32] {
        let starts = &mut self.0[..busy];
        let mut start = EARLIER.wrapping_neg() + 3 * CLASS_STEP + (N as u32 - 1) * STEP;
        for count in starts.iter_mut() {
            let rows = (*count >> 1) as u32;
            *count = start as i32;
            // One slot ahead more, and as many places on as there are rows.
            start = start.wrapping_sub(rows).wrapping_add(NEXT_START);
        }
        starts
    }
}

#[inline(always)]
fn rows(count: i32) -> usize {
    (count as u32).wrapping_add(OVER as u32 - 1) as usize / OVER as usize
}
