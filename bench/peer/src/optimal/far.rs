//! How far places are from an agent's goal, found out as far as is asked.
use crate::ground::{Cell, Ground, STEPS};

/// A place that waits, and how far it is from the goal on the way found.
#[derive(Clone, Copy)]
struct Waiting {
    far: u32,
    cell: Cell,
}

/// A search from the goal toward the start that goes on whenever a place is asked for that it hasn't settled.
pub struct Far {
    start: Cell,
    /// For each place how far it is, plus 1 and doubled, and the lowest bit where that is settled; 0 where no way led yet, so that memory is taken
    /// where the search comes.
    marks: Vec<u32>,
    /// What waits by ways through it to the start that may be `through` long, and two steps longer: no other lengths come up at once.
    now: Vec<Waiting>,
    later: Vec<Waiting>,
    through: u32,
}

/// How far a place is that no way leads to.
pub const NOWHERE: u32 = u32::MAX;

/// How many steps lead from one cell to another where none is blocked.
#[inline(always)]
pub fn steps_between(one: Cell, other: Cell) -> u32 {
    u32::from(one.0.abs_diff(other.0)) + u32::from(one.1.abs_diff(other.1))
}

impl Far {
    pub fn new(ground: &Ground, start: Cell, goal: Cell) -> Far {
        let mut far = Far { start, marks: vec![0; ground.len()], now: Vec::new(), later: Vec::new(), through: steps_between(start, goal) };
        far.marks[ground.place(goal)] = 2;
        far.now.push(Waiting { far: 0, cell: goal });
        far
    }

    /// How far a place is, if that is settled.
    #[inline(always)]
    pub fn settled(&self, place: u32) -> Option<u32> {
        let mark = self.marks[place as usize];
        (mark & 1 == 1).then(|| (mark >> 1) - 1)
    }

    /// How far a place is, or at least: the goal itself is settled first.
    #[inline(always)]
    pub fn at_least(&self, place: u32, cell: Cell) -> u32 {
        self.settled(place).unwrap_or_else(|| self.through.saturating_sub(steps_between(cell, self.start)).max(1))
    }

    /// How far a place is.
    pub fn exactly(&mut self, ground: &Ground, place: u32) -> u32 {
        loop {
            if let Some(far) = self.settled(place) {
                return far;
            }
            let Some(next) = self.now.pop() else {
                if self.later.is_empty() {
                    return NOWHERE;
                }
                std::mem::swap(&mut self.now, &mut self.later);
                self.through += 2;
                continue;
            };
            self.settle(ground, next);
        }
    }

    #[inline(always)]
    fn settle(&mut self, ground: &Ground, it: Waiting) {
        let place = ground.place(it.cell);
        // Settled already, or a shorter way led there since.
        if self.marks[place] != (it.far + 1) << 1 {
            return;
        }
        self.marks[place] |= 1;
        let (mark, far, leads) = ((it.far + 2) << 1, it.far + 1, ground.leads());
        let legal = ground.steps(place);
        for step in 0..4 {
            let to = (place as i32 + leads[step]) as usize;
            if legal >> step & 1 == 0 || (self.marks[to] != 0 && self.marks[to] | 1 <= mark | 1) {
                continue;
            }
            self.marks[to] = mark;
            let (dx, dy) = STEPS[step];
            let cell = (it.cell.0.wrapping_add_signed(dx), it.cell.1.wrapping_add_signed(dy));
            let is_nearer = steps_between(cell, self.start) < steps_between(it.cell, self.start);
            let waits = if is_nearer { &mut self.now } else { &mut self.later };
            waits.push(Waiting { far, cell });
        }
    }

    /// Adds the places of a shortest way from a settled place to the goal, without that place itself.
    pub fn follow(&self, ground: &Ground, mut place: u32, walk: &mut Vec<u32>) {
        let leads = ground.leads();
        let mut mark = self.marks[place as usize];
        while mark > 3 {
            mark -= 2;
            let legal = ground.steps(place as usize);
            let nearer = (0..4).find(|&step| legal >> step & 1 == 1 && self.marks[(place as i32 + leads[step]) as usize] == mark);
            let step = nearer.expect("the place from which a settled one was reached");
            place = (place as i32 + leads[step]) as u32;
            walk.push(place);
        }
    }
}
