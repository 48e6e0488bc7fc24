//! Agents under way, step by step.
//!
//! In a plan the acts of one step lie far apart, a line of the cache for each agent. So the acts of some steps are turned from a row for each agent
//! into a row for each step, and the agents stand in the order of their places: those near one another then touch the same memory one after the other.
use crate::plan::Plan;

/// So many steps are prepared at a time.
pub const BLOCK: usize = 64;

/// The acts of so many agents are turned at once.
const GROUP: usize = 32;

/// The agents that have acts left, each with what is known of it, and their acts.
pub struct Crowd<'p, W> {
    plan: &'p Plan,
    walkers: Vec<W>,
    agents: Vec<u16>,
    rows: Vec<u8>,
    stride: usize,
}

impl<'p, W: Copy> Crowd<'p, W> {
    /// All agents of a plan.
    pub fn new(plan: &'p Plan, walkers: Vec<W>) -> Self {
        let count = walkers.len();
        // An odd number of cache lines keeps the beginnings of rows apart in the cache.
        let stride = (count.div_ceil(64) | 1) * 64;
        Crowd { plan, walkers, agents: (0..count as u16).collect(), rows: vec![b'-'; BLOCK * stride], stride }
    }

    pub fn is_empty(&self) -> bool {
        self.walkers.is_empty()
    }

    /// Lets go of those whose acts are over at the step, and prepares the block of steps that begins with it, in the order of their places. Acts that end
    /// within it become waits.
    pub fn prepare(&mut self, step: usize, place: impl Fn(&W) -> u32, mut over: impl FnMut(&W)) {
        let mut left = Vec::with_capacity(self.walkers.len());
        for (walker, &agent) in self.walkers.iter().zip(&self.agents) {
            if self.plan.acts_of(agent.into()).len() <= step {
                over(walker);
            } else {
                left.push((place(walker), agent, *walker));
            }
        }
        left.sort_unstable_by_key(|&(place, _, _)| place);
        self.walkers.clear();
        self.agents.clear();
        for (group, at) in left.chunks(GROUP).zip((0..).step_by(GROUP)) {
            self.turn(step, group.iter().map(|&(_, agent, _)| agent), at);
        }
        for (_, agent, walker) in left {
            self.walkers.push(walker);
            self.agents.push(agent);
        }
    }

    /// Puts the acts of a group of agents into the rows, from a place on. All are fetched before the first is put, so that the group waits for far memory once.
    fn turn(&mut self, step: usize, agents: impl Iterator<Item = u16>, at: usize) {
        let mut fetched = [[b'-'; BLOCK]; GROUP];
        let mut count = 0;
        for (stretch, agent) in fetched.iter_mut().zip(agents) {
            let acts = &self.plan.acts_of(agent.into())[step..];
            let some = acts.len().min(BLOCK);
            stretch[..some].copy_from_slice(&acts[..some]);
            count += 1;
        }
        for (n, row) in self.rows.chunks_exact_mut(self.stride).enumerate() {
            for (act, stretch) in row[at..at + count].iter_mut().zip(&fetched) {
                *act = stretch[n];
            }
        }
    }

    /// What is known of the agents, and their acts in the n-th step of the block.
    pub fn step(&mut self, n: usize) -> (&mut [W], &[u8]) {
        let acts = &self.rows[n * self.stride..][..self.walkers.len()];
        (&mut self.walkers, acts)
    }
}

/// By how much each act changes a place, on a board whose rows are so wide.
pub fn leads(wide: u32) -> [u32; 256] {
    let mut by_act = [0; 256];
    by_act[usize::from(b'n')] = wide.wrapping_neg();
    by_act[usize::from(b'e')] = 1;
    by_act[usize::from(b's')] = wide;
    by_act[usize::from(b'w')] = 1u32.wrapping_neg();
    by_act
}

/// The place of a cell.
pub fn place_of((x, y): (u16, u16), wide: u32) -> u32 {
    (u32::from(y) + 1) * wide + u32::from(x) + 1
}
