//! The agents under what a node of the tree asks of them.
use super::asked::Asked;
use super::far::Far;
use super::least::Search;
use super::text::{Objective, Split};
use crate::ground::{Cell, Ground};

struct Agent {
    ends: (Cell, Cell),
    far: Far,
    asked: Vec<Asked>,
    /// A least walk, by its place at each time up to its cost; without places where all leaves below stand whatever it is.
    walk: Vec<u32>,
}

/// What was done last, and how it is taken back.
enum Change {
    /// Something more was asked of an agent.
    Asked(usize),
    /// An agent had this walk before.
    Walked(usize, Vec<u32>),
}

/// All agents, and what has changed on the way to the node at hand.
pub struct Team<'a> {
    ground: &'a Ground,
    agents: Vec<Agent>,
    search: Search,
    changes: Vec<Change>,
    objective: Objective,
    /// What a leaf has to come to.
    bound: u64,
    sum: u64,
    /// How many agents have no walk by which a leaf might be too low.
    stuck: usize,
}

/// A cell's place.
fn place(ground: &Ground, [x, y]: [u16; 2]) -> u32 {
    ground.place((x, y)) as u32
}

impl<'a> Team<'a> {
    /// Agents with these starts and goals, of whom nothing is asked.
    pub fn new(ground: &'a Ground, ends: &[(Cell, Cell)], objective: Objective, bound: u64) -> Team<'a> {
        let agent = |&ends: &(Cell, Cell)| Agent { ends, far: Far::new(ground, ends.0, ends.1), asked: Vec::new(), walk: Vec::new() };
        let agents: Vec<Agent> = ends.iter().map(agent).collect();
        let stuck = agents.len();
        let mut team = Team { ground, agents, search: Search::new(), changes: Vec::new(), objective, bound, sum: 0, stuck };
        for agent in 0..ends.len() {
            team.walk_anew(agent);
        }
        team.changes.clear();
        team
    }

    pub fn len(&self) -> usize {
        self.agents.len()
    }

    /// How many changes there were.
    pub fn mark(&self) -> usize {
        self.changes.len()
    }

    /// Goes back to where there were so many.
    pub fn go_back(&mut self, mark: usize) {
        while self.changes.len() > mark {
            match self.changes.pop() {
                Some(Change::Asked(agent)) => drop(self.agents[agent].asked.pop()),
                Some(Change::Walked(agent, walk)) => drop(self.put_walk(agent, walk)),
                None => {}
            }
        }
    }

    /// Puts a walk of an agent in place of another one, which is the answer.
    fn put_walk(&mut self, agent: usize, walk: Vec<u32>) -> Vec<u32> {
        let new = walk.len() as u64;
        let old = std::mem::replace(&mut self.agents[agent].walk, walk);
        self.sum = self.sum + new.saturating_sub(1) - (old.len() as u64).saturating_sub(1);
        self.stuck = self.stuck + usize::from(new == 0) - usize::from(old.is_empty());
        old
    }

    /// From what cost of an agent on all leaves below stand.
    fn limit_of(&self, agent: usize) -> u64 {
        let own = (self.agents[agent].walk.len() as u64).saturating_sub(1);
        match self.objective {
            Objective::Cost => self.bound.saturating_sub(self.sum - own),
            Objective::Makespan => self.bound,
        }
    }

    fn walk_anew(&mut self, agent: usize) {
        let limit = self.limit_of(agent);
        let it = &mut self.agents[agent];
        let walk = self.search.least(self.ground, &mut it.far, it.ends, &it.asked, limit).unwrap_or_default();
        let old = self.put_walk(agent, walk);
        self.changes.push(Change::Walked(agent, old));
    }

    /// Asks something more of an agent.
    fn ask(&mut self, agent: usize, more: Asked) {
        self.agents[agent].asked.push(more);
        self.changes.push(Change::Asked(agent));
    }

    /// Sees to it that agents do the last so many things that were asked of them. Once one has no walk, all leaves below stand, whatever others do.
    fn obey(&mut self, agents: std::ops::Range<usize>, count: usize) {
        for agent in agents {
            let it = &self.agents[agent];
            let new = &it.asked[it.asked.len().saturating_sub(count)..];
            if self.stuck == 0 && !new.iter().all(|asked| asked.is_done(&it.walk)) {
                self.walk_anew(agent);
            }
        }
    }

    fn ask_one(&mut self, agent: u32, more: Asked) {
        let agent = agent as usize;
        self.ask(agent, more);
        self.obey(agent..agent + 1, 1);
    }

    /// Asks of one agent what it alone has to do, and of all others what they have.
    fn ask_all(&mut self, agent: u32, own: &[Asked], others: &[Asked]) {
        for it in 0..self.len() {
            for &more in if it == agent as usize { own } else { others } {
                self.ask(it, more);
            }
        }
        self.obey(0..self.len(), own.len().max(others.len()));
    }

    /// Goes to the first child of a node.
    pub fn go_first(&mut self, split: Split) {
        let ground = self.ground;
        match split {
            Split::Vertex(i, _, t, cell) | Split::At(i, t, cell) => self.ask_one(i, Asked::Away(t, place(ground, cell))),
            Split::Swap(i, _, t, from, to) | Split::Goes(i, t, from, to) => self.ask_one(i, Asked::Left(t, place(ground, from), place(ground, to))),
            Split::Stays(i, t) => self.ask_one(i, Asked::Above(t)),
        }
    }

    /// Goes to the second child.
    pub fn go_second(&mut self, split: Split) {
        let ground = self.ground;
        match split {
            Split::Vertex(_, j, t, cell) => self.ask_one(j, Asked::Away(t, place(ground, cell))),
            Split::Swap(_, j, t, from, to) => self.ask_one(j, Asked::Left(t, place(ground, to), place(ground, from))),
            Split::At(i, t, cell) => {
                let at = place(ground, cell);
                self.ask_all(i, &[Asked::There(t, at)], &[Asked::Away(t, at)]);
            }
            Split::Goes(i, t, from, to) => {
                let (from, to) = (place(ground, from), place(ground, to));
                let others = [Asked::Away(t, from), Asked::Away(t + 1, to), Asked::Left(t, to, from)];
                self.ask_all(i, &[Asked::There(t, from), Asked::There(t + 1, to)], &others);
            }
            Split::Stays(i, t) => {
                let goal = ground.place(self.agents[i as usize].ends.1) as u32;
                self.ask_all(i, &[Asked::Most(t)], &[Asked::Shut(t, goal)]);
            }
        }
    }

    /// What the agents cost at least; none where one has no walk.
    pub fn least(&self, objective: Objective) -> Option<u64> {
        if self.stuck > 0 {
            return None;
        }
        Some(match objective {
            Objective::Cost => self.sum,
            Objective::Makespan => self.agents.iter().map(|it| it.walk.len() as u64 - 1).max().unwrap_or(0),
        })
    }
}
