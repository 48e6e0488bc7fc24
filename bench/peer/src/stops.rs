//! Where straight runs over a map stop, in bits: so 64 cells are looked at at once.
use crate::ground::{Ground, STEPS};
use crate::onward::ONWARD;

const BITS: usize = u64::BITS as usize;

/// For each straight step a bit for each place where a run of such steps doesn't simply go on: it
/// can't, or steps to a side lead on too. Those of steps to the north and the south stand column by
/// column, the others row by row.
pub struct Stops {
    /// How many words a row has, and a column.
    words: [usize; 2],
    bits: [Vec<u64>; 4],
}

/// The number of the row or the column in which a straight step leads on, and the place along it.
#[inline(always)]
pub fn along(step: usize, (x, y): (usize, usize)) -> (usize, usize) {
    if STEPS[step].0 == 0 { (x, y) } else { (y, x) }
}

/// For the legal steps from a place, whether a run of each straight step stops there, a bit each.
fn stops_of(legal: usize) -> u8 {
    let stops = |step: usize| u8::from(ONWARD[step][legal] != 1 << step);
    (0..4).fold(0, |all, step| all | stops(step) << step)
}

impl Stops {
    pub fn on(ground: &Ground) -> Stops {
        let (columns, rows) = ground.size();
        let table: [u8; 256] = std::array::from_fn(stops_of);
        let words = [columns.div_ceil(BITS), rows.div_ceil(BITS)];
        let lengths = [
            columns * words[1],
            rows * words[0],
            rows * words[0],
            columns * words[1],
        ];
        let mut stops = Stops {
            words,
            bits: lengths.map(|length| vec![0; length]),
        };
        for y in 0..rows {
            for (word, left) in (0..columns).step_by(BITS).enumerate() {
                let legal = &ground.row(y)[left..columns.min(left + BITS)];
                stops.put(&table, (word, left), y, legal);
            }
        }
        stops
    }

    /// Puts the bits of some cells of a row.
    fn put(&mut self, table: &[u8; 256], (word, left): (usize, usize), y: usize, legal: &[u8]) {
        let [row_words, column_words] = self.words;
        let [north, west, east, south] = &mut self.bits;
        let (mut to_west, mut to_east) = (0, 0);
        for (x, &legal) in legal.iter().enumerate() {
            let stops = u64::from(table[usize::from(legal)]);
            let at = (left + x) * column_words + y / BITS;
            north[at] |= (stops & 1) << (y % BITS);
            to_west |= (stops >> 1 & 1) << x;
            to_east |= (stops >> 2 & 1) << x;
            south[at] |= (stops >> 3) << (y % BITS);
        }
        west[y * row_words + word] = to_west;
        east[y * row_words + word] = to_east;
    }

    /// Where a run of straight steps first stops, from a place along its row or column on, if its
    /// first step is legal.
    #[inline(always)]
    pub fn stop(&self, step: usize, line: usize, from: usize) -> usize {
        let (dx, dy) = STEPS[step];
        let words = self.words[usize::from(dx == 0)];
        let line = &self.bits[step][line * words..][..words];
        if dx + dy > 0 {
            next_bit(line, from + 1)
        } else {
            last_bit(line, from)
        }
    }
}

/// The first bit from a place on. There is one: the border.
#[inline(always)]
fn next_bit(words: &[u64], from: usize) -> usize {
    let mut at = from / BITS;
    let mut word = words[at] & u64::MAX << (from % BITS);
    while word == 0 {
        at += 1;
        word = words[at];
    }
    at * BITS + word.trailing_zeros() as usize
}

/// The last bit before a place. There is one: the border.
#[inline(always)]
fn last_bit(words: &[u64], before: usize) -> usize {
    let mut at = before / BITS;
    let mut word = words[at] & !(u64::MAX << (before % BITS));
    while word == 0 {
        at -= 1;
        word = words[at];
    }
    at * BITS + BITS - 1 - word.leading_zeros() as usize
}
