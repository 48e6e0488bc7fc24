//! What a proof asks of an agent's walk.
use super::far::steps_between;
use crate::ground::{Cell, Ground};

/// One thing that is asked, with its time first. Cells are given by their places.
#[derive(Clone, Copy)]
pub enum Asked {
    /// It isn't in the place at the time.
    Away(u32, u32),
    /// It isn't in the place at the time or later.
    Shut(u32, u32),
    /// It is in the place at the time.
    There(u32, u32),
    /// It doesn't go from the one place to the other in the step that begins at the time.
    Left(u32, u32, u32),
    /// It costs more.
    Above(u32),
    /// It costs no more.
    Most(u32),
}

/// Where a walk is at a time: behind its last step it stays.
fn at(walk: &[u32], time: u32) -> u32 {
    walk[(time as usize).min(walk.len() - 1)]
}

impl Asked {
    /// Whether a walk, by its place at each time up to its cost, does this.
    pub fn is_done(self, walk: &[u32]) -> bool {
        let cost = walk.len() as u32 - 1;
        match self {
            Asked::Away(time, place) => at(walk, time) != place,
            Asked::Shut(time, place) => !walk[time.min(cost) as usize..].contains(&place),
            Asked::There(time, place) => at(walk, time) == place,
            Asked::Left(time, from, to) => at(walk, time) != from || at(walk, time + 1) != to,
            Asked::Above(least) => cost > least,
            Asked::Most(most) => cost <= most,
        }
    }

    /// Whether an agent that comes from one place to another, or stays, at a time, may do so.
    pub fn allows(self, from: u32, to: u32, time: u32) -> bool {
        match self {
            Asked::Away(then, place) => then != time || place != to,
            Asked::Shut(then, place) => then > time || place != to,
            Asked::There(then, place) => then != time || place == to,
            Asked::Left(then, out, into) => then + 1 != time || (out, into) != (from, to),
            Asked::Above(_) | Asked::Most(_) => true,
        }
    }

    /// The first time from which on this asks for nothing that changes with time.
    fn horizon(self) -> u32 {
        match self {
            Asked::Away(time, _) | Asked::Shut(time, _) | Asked::There(time, _) => time + 1,
            Asked::Left(time, _, _) | Asked::Above(time) | Asked::Most(time) => time + 1,
        }
    }

    /// The time at which an agent comes to somewhere where this is looked at, if there is one alone.
    fn arrival(self) -> Option<u32> {
        match self {
            Asked::Away(time, _) | Asked::There(time, _) => Some(time),
            Asked::Left(time, _, _) => Some(time + 1),
            Asked::Shut(_, _) | Asked::Above(_) | Asked::Most(_) => None,
        }
    }

    /// The least cost with which an agent may stay at its goal in the end.
    fn least_cost(self, goal: u32) -> u32 {
        match self {
            Asked::Away(time, place) if place == goal => time + 1,
            Asked::There(time, place) if place != goal => time + 1,
            Asked::Shut(_, place) if place == goal => u32::MAX,
            Asked::Above(least) => least + 1,
            _ => 0,
        }
    }
}

/// All that is asked of an agent, made ready for a search.
#[derive(Default)]
pub struct Rules {
    /// What is asked of who comes somewhere at one time, each with one more than where the next of the same time stands.
    timed: Vec<(Asked, u32)>,
    /// Where the first of each time stands, by one more; 0 where nothing is asked.
    first: Vec<u32>,
    shut: Vec<Asked>,
    /// For each time up to the last at which it has to be somewhere, when and where that is next.
    due: Vec<(u32, Cell)>,
    pub horizon: u32,
    pub least: u32,
    pub most: u32,
}

impl Rules {
    /// Takes what is asked of an agent with this goal.
    pub fn take(&mut self, ground: &Ground, asked: &[Asked], goal: u32) {
        self.horizon = asked.iter().map(|it| it.horizon()).max().unwrap_or(0);
        self.least = asked.iter().map(|it| it.least_cost(goal)).max().unwrap_or(0);
        self.most = u32::MAX;
        self.timed.clear();
        self.shut.clear();
        self.first.clear();
        self.first.resize(self.horizon as usize + 1, 0);
        for &it in asked {
            if let Some(time) = it.arrival() {
                self.timed.push((it, self.first[time as usize]));
                self.first[time as usize] = self.timed.len() as u32;
            }
            match it {
                Asked::Shut(_, _) => self.shut.push(it),
                Asked::Most(most) => self.most = self.most.min(most),
                _ => {}
            }
        }
        self.take_due(ground, asked);
    }

    fn take_due(&mut self, ground: &Ground, asked: &[Asked]) {
        self.due.clear();
        for it in asked {
            let Asked::There(time, place) = *it else {
                continue;
            };
            let (end, due) = (time as usize + 1, (time, ground.cell(place as usize)));
            if self.due.len() < end {
                self.due.resize(end, due);
            }
            for earlier in &mut self.due[..end] {
                if time < earlier.0 {
                    *earlier = due;
                }
            }
        }
    }

    /// Whether an agent may come in time from a cell to where it has to be next.
    #[inline(always)]
    pub fn is_in_reach(&self, cell: Cell, time: u32) -> bool {
        self.due.get(time as usize).is_none_or(|&(then, there)| steps_between(cell, there) <= then - time)
    }

    /// Whether nothing is asked any more from the horizon on.
    pub fn ends(&self) -> bool {
        self.shut.is_empty()
    }

    #[inline(always)]
    pub fn allows(&self, from: u32, to: u32, time: u32) -> bool {
        let mut next = self.first.get(time as usize).copied().unwrap_or(0);
        while next > 0 {
            let (asked, behind) = self.timed[next as usize - 1];
            if !asked.allows(from, to, time) {
                return false;
            }
            next = behind;
        }
        self.shut.iter().all(|it| it.allows(from, to, time))
    }
}
