//! A shortest walk to one goal, by A* with the octile distance.
use crate::search::{CLOSED, DIAGONAL, Found, Keys, STRAIGHT, UNREACHED, class};

/// Buckets of walks through a cell, by the least length that they can have. A step leads over fewer than so many.
const BUCKETS: usize = 8;
const BUCKET_WIDTH: u64 = 1 << 22;

/// The steps, straight ones first; each diagonal one with the straight ones that it passes.
const STRAIGHT_STEPS: [(u16, u16); 4] = [(0, !0), (!0, 0), (1, 0), (0, 1)];
const DIAGONAL_STEPS: [(u16, u16, usize, usize); 4] = [(!0, !0, 0, 1), (1, !0, 0, 2), (!0, 1, 3, 1), (1, 1, 3, 2)];

type Cell = (u16, u16);

struct Toward<'a> {
    width: usize,
    height: usize,
    cells: &'a [u8],
    own: u8,
    goal: Cell,
    /// 0 where no walk led yet, so that memory is taken where the search comes.
    keys: Vec<u64>,
    buckets: [Vec<(u64, Cell)>; BUCKETS],
    waiting: usize,
}

fn distance(from: Cell, to: Cell) -> u64 {
    let (columns, rows) = (u64::from(from.0.abs_diff(to.0)), u64::from(from.1.abs_diff(to.1)));
    columns.max(rows) * STRAIGHT + columns.min(rows) * (DIAGONAL - STRAIGHT)
}

impl Toward<'_> {
    fn place(&self, (x, y): Cell) -> usize {
        usize::from(y) * self.width + usize::from(x)
    }

    /// The key of a cell; `CLOSED` where no step leads.
    #[inline(always)]
    fn key(&self, cell: Cell) -> u64 {
        if usize::from(cell.0) >= self.width || usize::from(cell.1) >= self.height {
            return CLOSED;
        }
        let place = self.place(cell);
        match self.keys[place] {
            0 if class(self.cells[place]) != self.own => CLOSED,
            0 => UNREACHED,
            key => key,
        }
    }

    #[inline(always)]
    fn push(&mut self, cell: Cell, key: u64) {
        let place = self.place(cell);
        self.keys[place] = key;
        let through = key + distance(cell, self.goal);
        self.buckets[(through / BUCKET_WIDTH) as usize % BUCKETS].push((key, cell));
        self.waiting += 1;
    }

    #[inline(always)]
    fn settle(&mut self, (x, y): Cell, key: u64) {
        // whether a diagonal step past the cell may be best
        let mut passes = [false; 4];
        for (passes, (dx, dy)) in passes.iter_mut().zip(STRAIGHT_STEPS) {
            let cell = (x.wrapping_add(dx), y.wrapping_add(dy));
            let old = self.key(cell);
            if key + STRAIGHT < old {
                self.push(cell, key + STRAIGHT);
            }
            *passes = old + STRAIGHT > key + DIAGONAL;
        }
        for (dx, dy, row, column) in DIAGONAL_STEPS {
            let cell = (x.wrapping_add(dx), y.wrapping_add(dy));
            if passes[row] && passes[column] && key + DIAGONAL < self.key(cell) {
                self.push(cell, key + DIAGONAL);
            }
        }
    }

    fn best(&self) -> u64 {
        let key = self.keys[self.place(self.goal)];
        if key == 0 { UNREACHED } else { key }
    }

    /// Whether it was worth it: where walks are longer than the distance by a quarter, a search in all directions is quicker.
    fn run(&mut self, start: Cell) -> bool {
        let least = STRAIGHT + distance(start, self.goal);
        self.push(start, STRAIGHT);
        let mut bucket = least / BUCKET_WIDTH;
        loop {
            while let Some((key, cell)) = self.buckets[bucket as usize % BUCKETS].pop() {
                self.waiting -= 1;
                if self.keys[self.place(cell)] == key && key + distance(cell, self.goal) < self.best() {
                    self.settle(cell, key);
                }
            }
            if self.waiting == 0 || self.best() / BUCKET_WIDTH <= bucket {
                return true;
            }
            bucket += 1;
            if bucket * BUCKET_WIDTH > least + least / 4 {
                return false;
            }
        }
    }

    /// The cell before one on a shortest walk.
    fn before(&self, (x, y): Cell) -> Option<Cell> {
        let key = self.key((x, y));
        let from = |dx: u16, dy: u16| (x.wrapping_sub(dx), y.wrapping_sub(dy));
        let straight = STRAIGHT_STEPS.iter().map(|&(dx, dy)| from(dx, dy)).find(|&cell| self.key(cell) + STRAIGHT == key && key != STRAIGHT);
        straight.or_else(|| {
            let corners = DIAGONAL_STEPS.iter().filter(|(dx, dy, _, _)| self.key(from(*dx, 0)) != CLOSED && self.key(from(0, *dy)) != CLOSED);
            corners.map(|&(dx, dy, _, _)| from(dx, dy)).find(|&cell| self.key(cell) != CLOSED && self.key(cell) + DIAGONAL == key)
        })
    }
}

/// A shortest walk, none where no walk leads to the goal; or nothing where the distance didn't help.
pub fn toward(width: usize, height: usize, cells: &[u8], start: Cell, goal: Cell) -> Option<Option<Found>> {
    let own = class(cells[usize::from(start.1) * width + usize::from(start.0)]);
    let keys = vec![0; cells.len()];
    // a start that can't be left has no class
    let own = if own == 0 { u8::MAX } else { own };
    let mut search = Toward { width, height, cells, own, goal, keys, buckets: Default::default(), waiting: 0 };
    if !search.run(start) {
        return None;
    }
    let key = search.best();
    if key == UNREACHED {
        return Some(None);
    }
    let mut walk: Vec<Cell> = std::iter::successors(Some(goal), |&cell| search.before(cell)).collect();
    walk.reverse();
    Some(Some(Found { walk, length: Keys::parts(key) }))
}
