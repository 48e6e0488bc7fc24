//! What an agent costs at least under what is asked of it: a search in space and time.
use super::asked::{Asked, Rules};
use super::far::{Far, NOWHERE};
use super::seen::Seen;
use crate::ground::{Cell, Ground, STEPS};

/// Where an agent may be at a time, and from which of those it came.
#[derive(Clone, Copy)]
struct State {
    place: u32,
    time: u32,
    cell: Cell,
    before: u32,
    /// What a walk through it costs at least.
    through: u32,
}

const NONE: u32 = u32::MAX;

/// The search, whose room is kept for the next one. Of states by which walks may cost equally little the last is taken first, so that it goes straight
/// on where nothing is in the way.
pub struct Search {
    rules: Rules,
    states: Vec<State>,
    /// What waits, by the cost above that of the first.
    waiting: Vec<Vec<u32>>,
    at_hand: usize,
    first: u32,
    seen: Seen,
}

impl Search {
    pub fn new() -> Search {
        Search { rules: Rules::default(), states: Vec::new(), waiting: Vec::new(), at_hand: 0, first: 0, seen: Seen::new() }
    }

    /// A walk of least cost, by its place at each time up to that; none where there is none below the limit.
    pub fn least(&mut self, ground: &Ground, far: &mut Far, (start, goal): (Cell, Cell), asked: &[Asked], limit: u64) -> Option<Vec<u32>> {
        let (place, goal) = (ground.place(start) as u32, ground.place(goal) as u32);
        let most = limit.checked_sub(1)?;
        self.rules.take(ground, asked, goal);
        self.rules.most = self.rules.most.min(most.min(u32::MAX.into()) as u32);
        self.raise(ground, far, goal, asked);
        let is_out = far.exactly(ground, place) == NOWHERE || self.rules.least == NOWHERE;
        if is_out || !self.rules.is_in_reach(start, 0) || !asked.iter().all(|it| it.allows(place, place, 0)) {
            return None;
        }
        if place == goal && self.rules.least == 0 {
            return Some(vec![place]);
        }
        self.begin(State { place, time: 0, cell: start, before: NONE, through: self.through(far.exactly(ground, place), 0) });
        while let Some(number) = self.next() {
            let state = self.states[number as usize];
            let through = self.through(far.exactly(ground, state.place), state.time).max(state.through);
            if through > state.through {
                self.open(State { through, ..state });
            } else if self.is_new(state) {
                if state.time >= self.rules.horizon && self.rules.ends() && state.place != goal {
                    let mut walk = self.walk_to(number);
                    far.follow(ground, state.place, &mut walk);
                    return Some(walk);
                }
                if let Some(walk) = self.expand(ground, far, number, goal) {
                    return Some(walk);
                }
            }
        }
        None
    }

    /// What a walk costs at least that isn't over where it is so far from the goal at a time: one at the goal has to leave it and come back.
    #[inline(always)]
    fn through(&self, far: u32, time: u32) -> u32 {
        let left = if far == 0 { 2 } else { far };
        left.saturating_add(time).max(self.rules.least)
    }

    /// Raises the least cost to what one comes to at least who has to be somewhere at a time and goes on from there.
    fn raise(&mut self, ground: &Ground, far: &mut Far, goal: u32, asked: &[Asked]) {
        for it in asked {
            if let Asked::There(time, place) = *it && place != goal {
                self.rules.least = self.rules.least.max(far.exactly(ground, place).saturating_add(time));
            }
        }
    }

    fn begin(&mut self, state: State) {
        self.states.clear();
        self.seen.clear();
        for waiting in &mut self.waiting[self.at_hand..] {
            waiting.clear();
        }
        self.at_hand = 0;
        self.first = state.through;
        self.open(state);
    }

    #[inline(always)]
    fn open(&mut self, state: State) {
        // No walk leads on from there, or all cost too much.
        if state.through == NOWHERE || state.through > self.rules.most {
            return;
        }
        let at = (state.through - self.first) as usize;
        if at >= self.waiting.len() {
            self.waiting.resize_with(at + 1, Vec::new);
        }
        self.waiting[at].push(self.states.len() as u32);
        self.states.push(state);
    }

    #[inline(always)]
    fn next(&mut self) -> Option<u32> {
        loop {
            if let Some(number) = self.waiting.get_mut(self.at_hand)?.pop() {
                return Some(number);
            }
            self.at_hand += 1;
        }
    }

    /// Whether nothing was there at this time yet; behind the horizon all times are alike.
    #[inline(always)]
    fn is_new(&mut self, state: State) -> bool {
        let time = state.time.min(self.rules.horizon);
        self.seen.add(u64::from(time) << 32 | u64::from(state.place))
    }

    /// Opens what follows a state. Where that ends a walk, this is the answer.
    #[inline(always)]
    fn expand(&mut self, ground: &Ground, far: &Far, number: u32, goal: u32) -> Option<Vec<u32>> {
        let state = self.states[number as usize];
        let (leads, legal, time) = (ground.leads(), ground.steps(state.place as usize), state.time + 1);
        let own = far.settled(state.place).unwrap_or(0);
        self.reach(far, state, number, state.place, state.cell);
        // A step that leads nearer for sure is taken first, so it is opened last.
        let mut nearer = None;
        for step in 0..4 {
            if legal >> step & 1 == 0 {
                continue;
            }
            let to = (state.place as i32 + leads[step]) as u32;
            let (dx, dy) = STEPS[step];
            let cell = (state.cell.0.wrapping_add_signed(dx), state.cell.1.wrapping_add_signed(dy));
            let is_end = to == goal && time >= self.rules.least && time <= self.rules.most;
            if is_end && self.rules.allows(state.place, to, time) {
                let mut walk = self.walk_to(number);
                walk.push(to);
                return Some(walk);
            }
            if nearer.is_none() && far.settled(to).is_some_and(|it| it < own) {
                nearer = Some((to, cell));
            } else {
                self.reach(far, state, number, to, cell);
            }
        }
        if let Some((to, cell)) = nearer {
            self.reach(far, state, number, to, cell);
        }
        None
    }

    /// Opens what a step leads to, if it may be taken.
    #[inline(always)]
    fn reach(&mut self, far: &Far, from: State, before: u32, place: u32, cell: Cell) {
        let time = from.time + 1;
        if self.rules.is_in_reach(cell, time) && self.rules.allows(from.place, place, time) {
            let through = self.through(far.at_least(place, cell), time).max(from.through);
            self.open(State { place, time, cell, before, through });
        }
    }

    /// The places up to a state.
    fn walk_to(&self, number: u32) -> Vec<u32> {
        let last = self.states[number as usize];
        let mut walk = vec![0; last.time as usize + 1];
        let mut state = last;
        loop {
            walk[state.time as usize] = state.place;
            if state.before == NONE {
                return walk;
            }
            state = self.states[state.before as usize];
        }
    }
}
