//! Shortest walks from a cell.
use crate::toward::toward;

/// A straight step and a diagonal one as whole numbers: their ratio is so near to the root of two that no two lengths within the
/// limits of a map compare the wrong way, or alike.
pub const STRAIGHT: u64 = 6_625_109;
pub const DIAGONAL: u64 = 9_369_319;

/// Times the diagonal step this is one less than a multiple of the straight one.
const READ_BACK: u64 = 3_880_899;

/// Where no walk leads. The start counts as one straight step, so that 0 is left for what can't be entered.
pub const CLOSED: u64 = 0;
pub const UNREACHED: u64 = 1 << 62;

/// The key of a shortest walk from the start to each cell, with a border of closed cells.
pub struct Keys {
    keys: Vec<u64>,
    stride: usize,
    start: usize,
}

/// Cells to be settled after those of the bucket at hand.
struct Wave {
    next: Vec<u32>,
    later: Vec<u32>,
    /// Where the keys of `later` begin.
    later_from: u64,
}

/// Which cells a walk may pass: 1 land and swamp, 2 water, 0 nothing.
pub fn class(terrain: u8) -> u8 {
    match terrain {
        b'.' | b'G' | b'S' => 1,
        b'W' => 2,
        _ => 0,
    }
}

fn place(stride: usize, (x, y): (u16, u16)) -> usize {
    (usize::from(y) + 1) * stride + usize::from(x) + 1
}

impl Keys {
    fn new(width: usize, height: usize, cells: &[u8], start: (u16, u16)) -> Keys {
        let stride = width + 2;
        let own = class(cells[usize::from(start.1) * width + usize::from(start.0)]);
        let keys_of: [u64; 256] = std::array::from_fn(|b| if own != 0 && class(b as u8) == own { UNREACHED } else { CLOSED });
        let mut keys = Vec::with_capacity(stride * (height + 2));
        keys.resize(stride, CLOSED);
        for row in cells.chunks_exact(width) {
            keys.push(CLOSED);
            keys.extend(row.iter().map(|&b| keys_of[usize::from(b)]));
            keys.push(CLOSED);
        }
        keys.resize(stride * (height + 2), CLOSED);
        let start = place(stride, start);
        keys[start] = STRAIGHT;
        Keys { keys, stride, start }
    }

    /// Whether a diagonal step past the cell may be best: it isn't closed, and no straight step on from it leads as near.
    #[inline(always)]
    fn straight(&mut self, to: usize, from: u64, wave: &mut Wave) -> bool {
        let old = self.keys[to];
        let key = from + STRAIGHT;
        if key < old {
            self.keys[to] = key;
            if old >= wave.later_from {
                wave.next.push(to as u32);
            }
        }
        old + STRAIGHT > from + DIAGONAL
    }

    #[inline(always)]
    fn diagonal(&mut self, to: usize, key: u64, wave: &mut Wave) {
        let old = self.keys[to];
        if key < old {
            self.keys[to] = key;
            if key >= wave.later_from {
                if old == UNREACHED {
                    wave.later.push(to as u32);
                }
            } else if old >= wave.later_from {
                wave.next.push(to as u32);
            }
        }
    }

    #[inline(always)]
    fn settle(&mut self, at: usize, from: u64, wave: &mut Wave) {
        let stride = self.stride;
        let key = self.keys[at];
        if key < from {
            return;
        }
        let north = self.straight(at - stride, key, wave);
        let west = self.straight(at - 1, key, wave);
        let east = self.straight(at + 1, key, wave);
        let south = self.straight(at + stride, key, wave);
        if north && west {
            self.diagonal(at - stride - 1, key + DIAGONAL, wave);
        }
        if north && east {
            self.diagonal(at - stride + 1, key + DIAGONAL, wave);
        }
        if south && west {
            self.diagonal(at + stride - 1, key + DIAGONAL, wave);
        }
        if south && east {
            self.diagonal(at + stride + 1, key + DIAGONAL, wave);
        }
    }

    /// A bucket has the keys from one multiple of the straight step to the next, so a step leads into one of the two after it.
    /// It ends once the goal's key can't fall any more.
    fn flood(&mut self, goal: usize) {
        let mut now = vec![self.start as u32];
        let mut from = STRAIGHT;
        let mut wave = Wave { next: Vec::new(), later: Vec::new(), later_from: from + 2 * STRAIGHT };
        while !(now.is_empty() && wave.next.is_empty()) && (self.keys[goal] == CLOSED || self.keys[goal] >= from) {
            for &at in &now {
                self.settle(at as usize, from, &mut wave);
            }
            now.clear();
            std::mem::swap(&mut now, &mut wave.next);
            std::mem::swap(&mut wave.next, &mut wave.later);
            from += STRAIGHT;
            wave.later_from += STRAIGHT;
        }
    }

    /// The straight and the diagonal steps of a key.
    pub fn parts(key: u64) -> (u32, u32) {
        let diagonal = key % STRAIGHT * READ_BACK % STRAIGHT;
        let straight = (key - diagonal * DIAGONAL) / STRAIGHT - 1;
        (straight as u32, diagonal as u32)
    }

    /// The straight and the diagonal steps of a shortest walk to a cell, if there is one.
    fn length(&self, cell: (u16, u16)) -> Option<(u32, u32)> {
        let key = self.keys[place(self.stride, cell)];
        (key != CLOSED && key != UNREACHED).then(|| Keys::parts(key))
    }

    /// A neighbour of the cell that a shortest walk comes from.
    fn before(&self, at: usize) -> Option<usize> {
        let key = self.keys[at];
        let stride = self.stride;
        let is_at = |from: usize, step: u64| self.keys[from].wrapping_add(step) == key;
        let is_open = |cell: usize| self.keys[cell] != CLOSED;
        for beside in [at - 1, at + 1, at - stride, at + stride] {
            if is_at(beside, STRAIGHT) {
                return Some(beside);
            }
        }
        for row in [at - stride, at + stride] {
            for column in [at - 1, at + 1] {
                let corner = row + column - at;
                if is_at(corner, DIAGONAL) && is_open(row) && is_open(column) {
                    return Some(corner);
                }
            }
        }
        None
    }

    /// A shortest walk to a cell; empty where none leads there.
    fn walk(&self, goal: (u16, u16)) -> Vec<(u16, u16)> {
        let goal = place(self.stride, goal);
        let mut next = (self.keys[goal] != CLOSED && self.keys[goal] != UNREACHED).then_some(goal);
        let mut walk = vec![];
        while let Some(at) = next {
            walk.push(((at % self.stride - 1) as u16, (at / self.stride - 1) as u16));
            next = if at == self.start { None } else { self.before(at) };
        }
        walk.reverse();
        walk
    }
}

/// A shortest walk, and its straight and its diagonal steps.
pub struct Found {
    pub walk: Vec<(u16, u16)>,
    pub length: (u32, u32),
}

/// Goes toward the goal as long as that helps, and else in all directions.
pub fn search(width: usize, height: usize, cells: &[u8], start: (u16, u16), goal: (u16, u16)) -> Option<Found> {
    if let Some(found) = toward(width, height, cells, start, goal) {
        return found;
    }
    let mut keys = Keys::new(width, height, cells, start);
    keys.flood(place(keys.stride, goal));
    keys.length(goal).map(|length| Found { walk: keys.walk(goal), length })
}
