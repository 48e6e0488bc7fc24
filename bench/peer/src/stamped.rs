//! Keys of a map's places for one search after another, without clearing them in between.

/// A key has so many bits, and above them those that tell a search from others.
pub const KEY_BITS: u32 = 49;
const SEARCHES: u64 = 1 << 14;

/// A number for each place: what a search puts there is less than all that those before it put, so
/// what it hasn't reached compares as if no walk led there.
pub struct Stamped {
    numbers: Vec<u64>,
    /// How many searches can follow before all is cleared.
    left: u64,
}

impl Stamped {
    pub fn new(places: usize) -> Stamped {
        Stamped {
            numbers: vec![SEARCHES << KEY_BITS; places],
            left: SEARCHES,
        }
    }

    /// Forgets all keys. The answer is what is added to those of the next search.
    pub fn begin(&mut self) -> u64 {
        if self.left == 0 {
            self.numbers.fill(SEARCHES << KEY_BITS);
            self.left = SEARCHES;
        }
        self.left -= 1;
        self.left << KEY_BITS
    }

    #[inline(always)]
    pub fn get(&self, place: usize) -> u64 {
        self.numbers[place]
    }

    #[inline(always)]
    pub fn set(&mut self, place: usize, number: u64) {
        self.numbers[place] = number;
    }

    /// The key of a place, if this search has put one.
    pub fn key(&self, place: usize, base: u64) -> Option<u64> {
        let key = self.numbers[place] - base;
        (key >> KEY_BITS == 0).then_some(key)
    }
}
