//! The legal steps from each cell of a map, for many searches on it.
use crate::search::class;

/// A column and a row.
pub type Cell = (u16, u16);

/// The steps, each by its number; the first four are the straight ones.
pub const STEPS: [(i16, i16); 8] = [
    (0, -1),
    (-1, 0),
    (1, 0),
    (0, 1),
    (-1, -1),
    (1, -1),
    (-1, 1),
    (1, 1),
];

/// The straight steps to both sides of a diagonal one, from the first of those on.
const SIDES: [(u8, u8); 4] = [(0, 1), (0, 2), (3, 1), (3, 2)];

/// A map with a border of cells from which no step leads. What is asked of a cell goes by its
/// place.
pub struct Ground {
    stride: usize,
    /// A bit for each step from each place, by its number, where it is legal.
    steps: Vec<u8>,
}

impl Ground {
    pub fn new(width: usize, height: usize, cells: &[u8]) -> Ground {
        let stride = width + 2;
        let classes = classes(width, height, cells);
        let mut steps = vec![0; classes.len()];
        for row in 1..=height {
            let rows = [row - 1, row, row + 1].map(|it| &classes[it * stride..][..stride]);
            put_steps(&mut steps[row * stride..][..stride], rows);
        }
        Ground { stride, steps }
    }

    /// How many places there are.
    pub fn len(&self) -> usize {
        self.steps.len()
    }

    /// How many columns and rows, with the border.
    pub fn size(&self) -> (usize, usize) {
        (self.stride, self.steps.len() / self.stride)
    }

    /// The legal steps from each place of a row, the border's being the first and the last.
    pub fn row(&self, row: usize) -> &[u8] {
        &self.steps[row * self.stride..][..self.stride]
    }

    #[inline(always)]
    pub fn place(&self, (x, y): Cell) -> usize {
        (usize::from(y) + 1) * self.stride + usize::from(x) + 1
    }

    /// The cell of a place.
    pub fn cell(&self, place: usize) -> Cell {
        ((place % self.stride - 1) as u16, (place / self.stride - 1) as u16)
    }

    #[inline(always)]
    pub fn steps(&self, place: usize) -> u8 {
        self.steps[place]
    }

    /// By how much each step changes a place.
    pub fn leads(&self) -> [i32; 8] {
        STEPS.map(|(dx, dy)| i32::from(dy) * self.stride as i32 + i32::from(dx))
    }
}

/// What each place is passed by, as `class` says it, with the border.
pub fn classes(width: usize, height: usize, cells: &[u8]) -> Vec<u8> {
    let class_of: [u8; 256] = std::array::from_fn(|byte| class(byte as u8));
    let stride = width + 2;
    let mut classes = vec![0; stride * (height + 2)];
    let inner = classes[stride..].chunks_exact_mut(stride);
    for (classes, row) in inner.zip(cells.chunks_exact(width)) {
        for (class, &byte) in classes[1..].iter_mut().zip(row) {
            *class = class_of[usize::from(byte)];
        }
    }
    classes
}

/// Puts the legal steps of a row, by what it and those beside it are passed by. No branch, so that
/// the compiler does many cells at once.
fn put_steps(steps: &mut [u8], [above, own, below]: [&[u8]; 3]) {
    let count = steps.len();
    let (above, own, below) = (&above[..count], &own[..count], &below[..count]);
    for x in 1..count - 1 {
        let class = own[x];
        let same = |other: u8| u8::from((other == class) & (class != 0));
        let straight = [
            same(above[x]),
            same(own[x - 1]),
            same(own[x + 1]),
            same(below[x]),
        ];
        let corners = [above[x - 1], above[x + 1], below[x - 1], below[x + 1]].map(same);
        let mut legal = 0;
        for (number, leads) in straight.into_iter().enumerate() {
            legal |= leads << number;
        }
        for (number, (row, column)) in SIDES.into_iter().enumerate() {
            let leads =
                corners[number] & straight[usize::from(row)] & straight[usize::from(column)];
            legal |= leads << (4 + number);
        }
        steps[x] = legal;
    }
}
