//! Shortest walks on one map, one search after another, by jump points: A* in which only the cells
//! wait where straight runs stop that steps to a side lead on from (Harabor and Grastien,
//! "Improving Jump Point Search", ICAPS 2014: no corner is cut, 64 cells are looked at at once, and
//! cells where diagonal runs would stop are passed).
use crate::buckets::Buckets;
use crate::ground::{Cell, Ground, STEPS};
use crate::onward::{FROM_START, ONWARD};
use crate::search::{DIAGONAL, Keys, STRAIGHT};
use crate::stamped::Stamped;
use crate::stops::{Stops, along};
use crate::walks::{STEP_BITS, STEP_MASK, cell_after, distance};

/// The straight steps into which each diagonal one can be taken apart.
const PARTS: [[usize; 2]; 4] = [[0, 1], [0, 2], [3, 1], [3, 2]];

/// A cell, and the number that it had when it was put into a bucket.
#[derive(Clone, Copy)]
struct Open {
    number: u64,
    cell: Cell,
}

/// Searches on a map, all of whose room is kept between them.
pub struct Jumps<'a> {
    ground: &'a Ground,
    leads: [i32; 8],
    stops: Stops,
    numbers: Stamped,
    buckets: Buckets<Open>,
    /// What the search at hand adds to each number.
    base: u64,
    goal: Cell,
    goal_place: usize,
}

impl<'a> Jumps<'a> {
    pub fn on(ground: &'a Ground) -> Jumps<'a> {
        let (columns, rows) = ground.size();
        // No jump is longer than a row and a column.
        let buckets = Buckets::new(2 * DIAGONAL * (columns + rows) as u64);
        let (stops, numbers) = (Stops::on(ground), Stamped::new(ground.len()));
        let (goal, goal_place, leads) = ((0, 0), 0, ground.leads());
        Jumps {
            ground,
            leads,
            stops,
            numbers,
            buckets,
            base: 0,
            goal,
            goal_place,
        }
    }

    /// The straight and the diagonal steps of a shortest walk, if one leads to the goal.
    pub fn shortest(&mut self, start: Cell, goal: Cell) -> Option<(u32, u32)> {
        self.base = self.numbers.begin();
        (self.goal, self.goal_place) = (goal, self.ground.place(goal));
        let least = STRAIGHT + distance(start, goal);
        self.buckets.begin(least);
        let number = self.base + (STRAIGHT << STEP_BITS) + u64::from(FROM_START);
        self.open(self.ground.place(start), start, number);
        self.run(least);
        let key = self.numbers.key(self.goal_place, self.base)?;
        Some(Keys::parts(key >> STEP_BITS))
    }

    /// Goes on until no walk to the goal can be shorter.
    fn run(&mut self, least: u64) {
        loop {
            while let Some(open) = self.buckets.pop() {
                let best = self.numbers.get(self.goal_place);
                let place = self.ground.place(open.cell);
                if self.numbers.get(place) == open.number
                    && self.through(open.cell, open.number) < best
                {
                    self.settle(place, open);
                } else if best - self.base <= (least << STEP_BITS) + STEP_MASK {
                    return;
                }
            }
            if !self
                .buckets
                .advance((self.numbers.get(self.goal_place) - self.base) >> STEP_BITS)
            {
                return;
            }
        }
    }

    /// The number of the least length of a walk through a cell.
    #[inline(always)]
    fn through(&self, cell: Cell, number: u64) -> u64 {
        number + (distance(cell, self.goal) << STEP_BITS)
    }

    #[inline(always)]
    fn open(&mut self, place: usize, cell: Cell, number: u64) {
        if number < self.numbers.get(place) {
            self.numbers.set(place, number);
            let key = (number - self.base) >> STEP_BITS;
            self.buckets
                .push(key + distance(cell, self.goal), Open { number, cell });
        }
    }

    #[inline(always)]
    fn settle(&mut self, place: usize, open: Open) {
        let legal = self.ground.steps(place);
        let mut onward = ONWARD[(open.number & STEP_MASK) as usize][usize::from(legal)];
        let number = open.number & !STEP_MASK;
        while onward != 0 {
            let step = onward.trailing_zeros() as usize;
            onward &= onward - 1;
            if step < 4 {
                self.run_straight(open.cell, number, step);
            } else {
                self.run_diagonally(place, open.cell, number, step);
            }
        }
    }

    /// Runs from a cell by straight steps, of which the first is legal, up to the goal or where
    /// steps to a side lead on.
    #[inline(always)]
    fn run_straight(&mut self, cell: Cell, number: u64, step: usize) {
        let (line, from) = along(step, (usize::from(cell.0) + 1, usize::from(cell.1) + 1));
        let mut stop = self.stops.stop(step, line, from);
        let goal = (usize::from(self.goal.0) + 1, usize::from(self.goal.1) + 1);
        let (goal_line, goal_at) = along(step, goal);
        let is_passed = (from < goal_at && goal_at <= stop) || (stop <= goal_at && goal_at < from);
        let is_at_goal = goal_line == line && is_passed;
        if is_at_goal {
            stop = goal_at;
        }
        let (x, y) = if STEPS[step].0 == 0 {
            (line, stop)
        } else {
            (stop, line)
        };
        let cell = ((x - 1) as u16, (y - 1) as u16);
        let place = self.ground.place(cell);
        let legal = usize::from(self.ground.steps(place));
        if is_at_goal || ONWARD[step][legal] != 0 {
            let length = from.abs_diff(stop) as u64 * STRAIGHT;
            self.open(place, cell, number + (length << STEP_BITS) + step as u64);
        }
    }

    /// Runs from a cell by diagonal steps, of which the first is legal, as long as they are; from
    /// each cell on the way also by the two straight steps.
    fn run_diagonally(&mut self, mut place: usize, mut cell: Cell, mut number: u64, step: usize) {
        loop {
            place = (place as i32 + self.leads[step]) as usize;
            cell = cell_after(cell, step);
            number += DIAGONAL << STEP_BITS;
            if self.through(cell, number) >= self.numbers.get(self.goal_place) {
                return;
            }
            if place == self.goal_place {
                self.open(place, cell, number + step as u64);
                return;
            }
            let legal = self.ground.steps(place);
            for part in PARTS[step - 4] {
                if legal >> part & 1 != 0 {
                    self.run_straight(cell, number, part);
                }
            }
            if legal >> step & 1 == 0 {
                return;
            }
        }
    }
}
