//! The least number of straight steps between cells of one map, one search after another: A* with
//! the sum of columns and rows.
use crate::ground::{Cell, classes};

/// What is marked of a place that can't be entered.
const CLOSED: u8 = u8::MAX;

/// A step toward the goal leaves the least length of a walk as it is, and any other makes it two
/// steps longer. So the cells of each such length are found at once, toward the goal first, and
/// from all of them those of the next; how many steps lead to a cell is never asked. All room is
/// kept between searches.
pub struct Paces {
    stride: usize,
    classes: Vec<u8>,
    /// For land and for water what is marked of each place: the number of the last search that came
    /// there. None is made before it is asked for.
    marks: [Vec<u8>; 2],
    searches: [u8; 2],
    waiting: Vec<Cell>,
    level: Vec<Cell>,
}

/// One of these searches.
struct Search<'a> {
    stride: usize,
    marks: &'a mut [u8],
    mark: u8,
    goal: Cell,
    waiting: &'a mut Vec<Cell>,
}

impl Paces {
    pub fn on(width: usize, height: usize, cells: &[u8]) -> Paces {
        let classes = classes(width, height, cells);
        let (marks, searches) = Default::default();
        let (waiting, level) = Default::default();
        Paces {
            stride: width + 2,
            classes,
            marks,
            searches,
            waiting,
            level,
        }
    }

    /// The least number of straight steps, if any lead to the goal.
    pub fn least(&mut self, start: Cell, goal: Cell) -> Option<u32> {
        let place = (usize::from(start.1) + 1) * self.stride + usize::from(start.0) + 1;
        match self.classes[place] {
            _ if start == goal => Some(0),
            0 => None,
            class => self.search(class, start, goal),
        }
    }

    fn search(&mut self, class: u8, start: Cell, goal: Cell) -> Option<u32> {
        let mark = self.next_mark(class);
        let Paces {
            stride,
            marks,
            waiting,
            level,
            ..
        } = self;
        let marks = &mut marks[usize::from(class) - 1];
        waiting.clear();
        level.clear();
        let mut search = Search {
            stride: *stride,
            marks,
            mark,
            goal,
            waiting,
        };
        search.run(start, level)
    }

    /// The number of a search of a class. Once in so many searches all marks are cleared.
    fn next_mark(&mut self, class: u8) -> u8 {
        let number = usize::from(class) - 1;
        let (marks, search) = (&mut self.marks[number], &mut self.searches[number]);
        if marks.is_empty() || *search == CLOSED - 1 {
            let mark = |&other: &u8| if other == class { 0 } else { CLOSED };
            *marks = self.classes.iter().map(mark).collect();
            *search = 0;
        }
        *search += 1;
        *search
    }
}

impl Search<'_> {
    /// Marks a cell, if it is free and was not marked before. The answer is whether it is the goal.
    #[inline(always)]
    fn enter(&mut self, cell: Cell) -> bool {
        let place =
            usize::from(cell.1.wrapping_add(1)) * self.stride + usize::from(cell.0.wrapping_add(1));
        if self.marks[place] >= self.mark {
            return false;
        }
        self.marks[place] = self.mark;
        self.waiting.push(cell);
        cell == self.goal
    }

    /// Takes the steps toward the goal.
    #[inline(always)]
    fn go_nearer(&mut self, (x, y): Cell) -> bool {
        let goal = self.goal;
        let along = x != goal.0 && self.enter((if x < goal.0 { x + 1 } else { x - 1 }, y));
        along || y != goal.1 && self.enter((x, if y < goal.1 { y + 1 } else { y - 1 }))
    }

    /// Takes the others; none is the goal. Off the map the numbers wrap, and come to the border.
    #[inline(always)]
    fn go_away(&mut self, (x, y): Cell) {
        let goal = self.goal;
        if x >= goal.0 {
            self.enter_beside((x, y), 1, 0);
        }
        if x <= goal.0 {
            self.enter_beside((x, y), -1, 0);
        }
        if y >= goal.1 {
            self.enter_beside((x, y), 0, 1);
        }
        if y <= goal.1 {
            self.enter_beside((x, y), 0, -1);
        }
    }

    #[inline(always)]
    fn enter_beside(&mut self, (x, y): Cell, dx: i16, dy: i16) {
        let beside = (x.wrapping_add_signed(dx), y.wrapping_add_signed(dy));
        self.enter(beside);
    }

    fn run(&mut self, start: Cell, level: &mut Vec<Cell>) -> Option<u32> {
        let goal = self.goal;
        let mut least = u32::from(start.0.abs_diff(goal.0)) + u32::from(start.1.abs_diff(goal.1));
        self.enter(start);
        while !self.waiting.is_empty() {
            while let Some(cell) = self.waiting.pop() {
                level.push(cell);
                if self.go_nearer(cell) {
                    return Some(least);
                }
            }
            for cell in level.drain(..) {
                self.go_away(cell);
            }
            least += 2;
        }
        None
    }
}
