//! A set of numbers that is emptied at once.

/// Numbers in a table of a power of two, each at its place or behind; it is twice as long as they are many.
pub struct Seen {
    slots: Vec<(u64, u32)>,
    turn: u32,
    count: usize,
}

impl Seen {
    pub fn new() -> Seen {
        Seen { slots: vec![(0, 0); 1 << 12], turn: 1, count: 0 }
    }

    pub fn clear(&mut self) {
        self.count = 0;
        self.turn += 1;
    }

    /// Adds a number; the answer is whether it is new.
    #[inline(always)]
    pub fn add(&mut self, number: u64) -> bool {
        let mask = self.slots.len() - 1;
        let mut at = (number.wrapping_mul(0x9e37_79b9_7f4a_7c15) >> 32) as usize & mask;
        while self.slots[at].1 == self.turn {
            if self.slots[at].0 == number {
                return false;
            }
            at = (at + 1) & mask;
        }
        self.slots[at] = (number, self.turn);
        self.count += 1;
        if 2 * self.count > self.slots.len() {
            self.grow();
        }
        true
    }

    #[cold]
    fn grow(&mut self) {
        let more = vec![(0, 0); 2 * self.slots.len()];
        let old = std::mem::replace(&mut self.slots, more);
        self.count = 0;
        for (number, turn) in old {
            if turn == self.turn {
                self.add(number);
            }
        }
    }
}
