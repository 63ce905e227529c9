//! The kept rows' keys as a heap, the lightest on top.

/// Key 1 is the lightest, and below key k are keys 2 k and 2 k + 1. Key 0 is lighter than all, and keys not in use are
/// heavier, so that neither end needs a test of its own. It never holds more than N − 2 keys.
pub struct Lightest<const N: usize> {
    keys: [u64; N],
    len: usize,
}

impl<const N: usize> Lightest<N> {
    #[inline(always)]
    pub fn none() -> Self {
        let mut lightest = Lightest {
            keys: [u64::MAX; N],
            len: 0,
        };
        lightest.keys[0] = 0;
        lightest
    }

    /// All of these, where there were none.
    #[inline(always)]
    pub fn fill(&mut self, keys: &[u64]) {
        self.len = keys.len();
        self.keys[1..=keys.len()].copy_from_slice(keys);
        for at in (1..=keys.len() / 2).rev() {
            self.sink(at, self.keys[at]);
        }
    }

    #[inline(always)]
    pub fn len(&self) -> usize {
        self.len
    }

    #[inline(always)]
    pub fn add(&mut self, key: u64) {
        self.len += 1;
        let mut at = self.len % N;
        loop {
            let above = self.keys[at / 2];
            if above < key {
                break;
            }
            self.keys[at] = above;
            at /= 2;
        }
        self.keys[at] = key;
    }

    /// Takes the key in and gives the lightest out.
    #[inline(always)]
    pub fn exchange(&mut self, key: u64) -> u64 {
        let top = self.keys[1];
        if key < top {
            return key;
        }
        self.sink(1, key);
        top
    }

    /// Puts the key in at this place or below it.
    #[inline(always)]
    fn sink(&mut self, mut at: usize, key: u64) {
        let last = self.len.min(N - 2);
        let mut below = 2 * at;
        while below <= last {
            let (left, right) = (self.keys[below], self.keys[below + 1]);
            let lighter = left.min(right);
            if key < lighter {
                break;
            }
            self.keys[at] = lighter;
            at = below + usize::from(right < left);
            below = 2 * at;
        }
        self.keys[at % N] = key;
    }
}
