//! Shortest walks on one map, one search after another: toward the goal as long as that helps, and
//! else in all directions.
use crate::buckets::Buckets;
use crate::ground::{Cell, Ground, STEPS};
use crate::onward::{FROM_START, ONWARD};
use crate::search::{DIAGONAL, Keys, STRAIGHT};
use crate::stamped::{KEY_BITS, Stamped};

/// A number has the step that led to its cell in so many bits, and above them the key.
pub const STEP_BITS: u32 = 4;
pub const STEP_MASK: u64 = (1 << STEP_BITS) - 1;

/// What each step adds to the number of the cell before, without its step.
const ADDED: [u64; 8] = {
    let mut added = [0; 8];
    let mut step = 0;
    while step < 8 {
        added[step] = (if step < 4 { STRAIGHT } else { DIAGONAL } << STEP_BITS) | step as u64;
        step += 1;
    }
    added
};

/// A step adds at most two diagonal ones to the least length of a walk.
const RISE: u64 = 2 * DIAGONAL;

const WAVE: u64 = STRAIGHT << STEP_BITS;

/// A cell, and the number that it had when it was put into a bucket.
#[derive(Clone, Copy)]
struct Open {
    number: u64,
    cell: Cell,
}

/// The octile distance.
#[inline(always)]
pub fn distance(from: Cell, to: Cell) -> u64 {
    let (columns, rows) = (
        u64::from(from.0.abs_diff(to.0)),
        u64::from(from.1.abs_diff(to.1)),
    );
    columns.max(rows) * STRAIGHT + columns.min(rows) * (DIAGONAL - STRAIGHT)
}

/// The cell to which a step leads.
#[inline(always)]
pub fn cell_after((x, y): Cell, step: usize) -> Cell {
    let (dx, dy) = STEPS[step];
    (x.wrapping_add_signed(dx), y.wrapping_add_signed(dy))
}

/// Searches on a map, all of whose room is kept between them.
pub struct Walks<'a> {
    ground: &'a Ground,
    leads: [i32; 8],
    numbers: Stamped,
    buckets: Buckets<Open>,
    waves: [Vec<u32>; 3],
    /// What the search at hand adds to each number.
    base: u64,
}

impl<'a> Walks<'a> {
    pub fn on(ground: &'a Ground) -> Walks<'a> {
        let numbers = Stamped::new(ground.len());
        let (buckets, waves) = (Buckets::new(RISE), Default::default());
        Walks {
            ground,
            leads: ground.leads(),
            numbers,
            buckets,
            waves,
            base: 0,
        }
    }

    /// The straight and the diagonal steps of a shortest walk, if one leads to the goal.
    pub fn shortest(&mut self, start: Cell, goal: Cell) -> Option<(u32, u32)> {
        if !self.goes_toward(start, goal) {
            self.flood(self.ground.place(start), self.ground.place(goal));
        }
        let key = self.numbers.key(self.ground.place(goal), self.base)?;
        Some(Keys::parts(key >> STEP_BITS))
    }

    /// Begins a search; the answer is the number of its start, where a key is as long as one
    /// straight step.
    fn begin(&mut self) -> u64 {
        self.base = self.numbers.begin();
        self.base + (STRAIGHT << STEP_BITS) + u64::from(FROM_START)
    }

    /// What is not below this was put by no step of the search at hand.
    #[inline(always)]
    fn unreached(&self) -> u64 {
        self.base + (1 << KEY_BITS)
    }

    /// The steps to be taken from a place with a number, and the number that each step leads to is
    /// a sum with.
    #[inline(always)]
    fn onward(&self, place: usize, number: u64) -> (u8, u64) {
        let by = (number & STEP_MASK) as usize;
        let legal = self.ground.steps(place);
        (ONWARD[by][usize::from(legal)], number & !STEP_MASK)
    }

    #[inline(always)]
    fn open(&mut self, place: usize, cell: Cell, number: u64, goal: Cell) {
        self.numbers.set(place, number);
        let key = (number - self.base) >> STEP_BITS;
        self.buckets
            .push(key + distance(cell, goal), Open { number, cell });
    }

    #[inline(always)]
    fn settle(&mut self, place: usize, open: Open, goal: Cell) {
        let (mut onward, number) = self.onward(place, open.number);
        while onward != 0 {
            let step = onward.trailing_zeros() as usize;
            onward &= onward - 1;
            let to = (place as i32 + self.leads[step]) as usize;
            if number + ADDED[step] < self.numbers.get(to) {
                self.open(to, cell_after(open.cell, step), number + ADDED[step], goal);
            }
        }
    }

    /// Goes toward the goal. The answer is whether that was worth it: where walks are twice as long
    /// as the distance, a search in all directions is quicker.
    fn goes_toward(&mut self, start: Cell, goal: Cell) -> bool {
        let number = self.begin();
        let least = STRAIGHT + distance(start, goal);
        let goal_place = self.ground.place(goal);
        self.buckets.begin(least);
        self.open(self.ground.place(start), start, number, goal);
        loop {
            while let Some(open) = self.buckets.pop() {
                let place = self.ground.place(open.cell);
                if self.numbers.get(place) != open.number {
                    continue;
                }
                let best = self.numbers.get(goal_place);
                if best < self.unreached() {
                    if best - self.base <= (least << STEP_BITS) + STEP_MASK {
                        return true;
                    }
                    if open.number + (distance(open.cell, goal) << STEP_BITS) >= best {
                        continue;
                    }
                }
                self.settle(place, open, goal);
            }
            if !self
                .buckets
                .advance((self.numbers.get(goal_place) - self.base) >> STEP_BITS)
            {
                return true;
            }
            if self.buckets.least() > 2 * least {
                return false;
            }
        }
    }

    /// Goes in all directions. A bucket has the keys from one multiple of the straight step to the
    /// next, so a step leads into one of the two after it. It ends once the goal's key can't fall
    /// any more.
    fn flood(&mut self, start: usize, goal: usize) {
        let [mut now, mut next, mut later] = std::mem::take(&mut self.waves);
        let mut from = self.begin();
        self.numbers.set(start, from);
        from -= u64::from(FROM_START);
        now.push(start as u32);
        while !(now.is_empty() && next.is_empty()) && self.numbers.get(goal) >= from {
            for &place in &now {
                self.spread(place as usize, from, &mut next, &mut later);
            }
            now.clear();
            std::mem::swap(&mut now, &mut next);
            std::mem::swap(&mut next, &mut later);
            from += WAVE;
        }
        now.clear();
        next.clear();
        self.waves = [now, next, later];
    }

    /// Takes the steps from a place whose key is in the bucket that begins with a number.
    #[inline(always)]
    fn spread(&mut self, place: usize, from: u64, next: &mut Vec<u32>, later: &mut Vec<u32>) {
        let number = self.numbers.get(place);
        if number < from {
            return;
        }
        let later_from = from + 2 * WAVE;
        let (mut onward, number) = self.onward(place, number);
        while onward != 0 {
            let step = onward.trailing_zeros() as usize;
            onward &= onward - 1;
            let to = (place as i32 + self.leads[step]) as usize;
            let (old, new) = (self.numbers.get(to), number + ADDED[step]);
            if new < old {
                self.numbers.set(to, new);
                if new < later_from {
                    if old >= later_from {
                        next.push(to as u32);
                    }
                } else if old >= self.unreached() {
                    later.push(to as u32);
                }
            }
        }
    }
}
