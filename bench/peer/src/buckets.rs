//! What waits to be settled, by the least length that a walk through it can have.

const WIDTH_BITS: u32 = 22;

/// A ring of buckets, each as wide as two thirds of a straight step; of those in one, the last that
/// came is taken first. All room is kept for the next search.
pub struct Buckets<T> {
    ring: Vec<Vec<T>>,
    at_hand: usize,
    last: usize,
    waiting: usize,
}

impl<T> Buckets<T> {
    /// For numbers that rise by at most so much above those of the bucket at hand.
    pub fn new(rise: u64) -> Buckets<T> {
        let count = ((rise >> WIDTH_BITS) + 2).next_power_of_two();
        let ring = (0..count).map(|_| Vec::new()).collect();
        Buckets {
            ring,
            at_hand: 0,
            last: 0,
            waiting: 0,
        }
    }

    /// Forgets what waits, and begins at the bucket of a number.
    pub fn begin(&mut self, number: u64) {
        if self.waiting > 0 {
            for bucket in self.at_hand..=self.last {
                let at = self.place(bucket);
                self.ring[at].clear();
            }
        }
        self.waiting = 0;
        self.at_hand = (number >> WIDTH_BITS) as usize;
        self.last = self.at_hand;
    }

    #[inline(always)]
    fn place(&self, bucket: usize) -> usize {
        bucket & (self.ring.len() - 1)
    }

    #[inline(always)]
    pub fn push(&mut self, number: u64, item: T) {
        let bucket = (number >> WIDTH_BITS) as usize;
        let at = self.place(bucket);
        self.ring[at].push(item);
        self.last = self.last.max(bucket);
        self.waiting += 1;
    }

    #[inline(always)]
    pub fn pop(&mut self) -> Option<T> {
        let at = self.place(self.at_hand);
        let item = self.ring[at].pop()?;
        self.waiting -= 1;
        Some(item)
    }

    /// Makes the next bucket the one at hand, once this one is empty. The answer is whether
    /// something that waits may have a number below another one.
    pub fn advance(&mut self, most: u64) -> bool {
        let is_done = self.waiting == 0 || most >> WIDTH_BITS <= self.at_hand as u64;
        self.at_hand += 1;
        !is_done
    }

    /// The least number that the bucket at hand is for.
    pub fn least(&self) -> u64 {
        (self.at_hand as u64) << WIDTH_BITS
    }
}
