//! What the moves of a plan wait for, and its rotations: in one pass by time over the last visit of each cell.
use crate::crowd::{leads, place_of, Crowd, BLOCK};
use crate::output::Output;
use crate::plan::{self, Plan};
use crate::source::Fault;
use std::fs::File;
use std::io;

/// A visit of a cell: one more than the agent's number, and which cell of its path it is, in the upper and the lower 16 bits. None is 0.
type Visit = u32;

fn agent_of(visit: Visit) -> u32 {
    (visit >> 16) - 1
}

/// What a move waits for: that an agent has finished so many moves.
pub struct Need {
    pub agent: u16,
    pub count: u16,
}

pub struct Graph {
    /// Where the moves of each agent begin among all, and behind the last where they end.
    begins: Vec<u32>,
    /// For each move the visit of the agent that it waits for, from which that agent's last move is then finished; 0 where it waits for nobody.
    needs: Vec<Visit>,
    need_count: usize,
    /// Whether an agent waits anywhere. Where it doesn't, the memory of its needs is never touched.
    waits: Vec<bool>,
    rotations: Vec<(u32, Vec<u16>)>,
}

/// An agent under way.
#[derive(Clone, Copy)]
struct Mover {
    place: u32,
    /// Its visit of the cell in which it is.
    visit: Visit,
    /// Which of all moves is its next one.
    next: u32,
}

impl Graph {
    /// The graph of a valid plan on a map of this size.
    pub fn of(plan: &Plan, width: usize, height: usize) -> Graph {
        let count = plan.starts.len();
        let mut begins = Vec::with_capacity(count + 1);
        let mut total = 0;
        for agent in 0..count {
            begins.push(total);
            total += plan.acts_of(agent).iter().map(|&act| u32::from(act != b'-')).sum::<u32>();
        }
        begins.push(total);
        let wide = width as u32 + 2;
        let mut last: Vec<Visit> = vec![0; wide as usize * (height + 2)];
        let mut movers = Vec::with_capacity(count);
        for (agent, &start) in plan.starts.iter().enumerate() {
            let mover = Mover { place: place_of(start, wide), visit: (agent as u32 + 1) << 16, next: begins[agent] };
            last[mover.place as usize] = mover.visit;
            movers.push(mover);
        }
        let mut graph = Graph { begins, needs: vec![0; total as usize], need_count: 0, waits: vec![false; count], rotations: Vec::new() };
        graph.follow(Crowd::new(plan, movers), &mut last, &leads(wide), count);
        graph
    }

    /// Follows the agents to their ends.
    fn follow(&mut self, mut crowd: Crowd<'_, Mover>, last: &mut [Visit], leads: &[u32; 256], count: usize) {
        let mut rings = Rings::new(count);
        let mut step = 0;
        while !crowd.is_empty() {
            if step % BLOCK == 0 {
                crowd.prepare(step, |mover| mover.place, |_| {});
            }
            let (movers, acts) = crowd.step(step % BLOCK);
            for (mover, &act) in movers.iter_mut().zip(acts) {
                if act == b'-' {
                    continue;
                }
                mover.place = mover.place.wrapping_add(leads[usize::from(act)]);
                let before = std::mem::replace(&mut last[mover.place as usize], mover.visit + 1);
                if before != 0 && (before ^ mover.visit) >> 16 != 0 {
                    self.needs[mover.next as usize] = before + 1;
                    self.need_count += 1;
                    self.waits[agent_of(mover.visit) as usize] = true;
                    rings.entered.push((mover.visit, before));
                }
                mover.visit += 1;
                mover.next += 1;
                rings.newest[agent_of(mover.visit) as usize] = mover.visit;
            }
            rings.end_step(step as u32, &mut self.rotations);
            step += 1;
        }
    }

    pub fn has_rotations(&self) -> bool {
        !self.rotations.is_empty()
    }

    /// How many moves an agent makes.
    pub fn moves(&self, agent: usize) -> u32 {
        self.begins[agent + 1] - self.begins[agent]
    }

    /// Which of all moves is an agent's first one.
    pub fn first_move(&self, agent: usize) -> u32 {
        self.begins[agent]
    }

    /// How many moves all agents make.
    pub fn all_moves(&self) -> usize {
        self.needs.len()
    }

    /// What one of all moves waits for.
    pub fn need_of(&self, number: u32) -> Option<Need> {
        match self.needs[number as usize] {
            0 => None,
            visit => Some(Need { agent: agent_of(visit) as u16, count: visit as u16 }),
        }
    }

    /// What a move of an agent waits for.
    pub fn need(&self, agent: usize, number: u32) -> Option<Need> {
        self.need_of(self.begins[agent] + number)
    }
}

/// Finds the rotations of each step: agents each of which enters the cell that the next one leaves in it.
struct Rings {
    /// Each agent's newest visit.
    newest: Vec<Visit>,
    /// Who entered a cell in this step, by its visit before, and the last visit of another there.
    entered: Vec<(Visit, Visit)>,
    /// Whom each agent followed last, and in which step.
    ahead: Vec<(u32, u32)>,
    /// In which step each agent was last looked at.
    seen: Vec<u32>,
}

const NEVER: u32 = u32::MAX;

impl Rings {
    fn new(count: usize) -> Rings {
        Rings { newest: vec![0; count], entered: Vec::with_capacity(count), ahead: vec![(NEVER, 0); count], seen: vec![NEVER; count] }
    }

    fn end_step(&mut self, step: u32, rotations: &mut Vec<(u32, Vec<u16>)>) {
        // Whoever left the cell earlier rests, and follows nobody in this step.
        for &(visit, before) in &self.entered {
            let other = agent_of(before);
            if self.newest[other as usize] == before + 1 {
                self.ahead[agent_of(visit) as usize] = (step, other);
            }
        }
        let found = rotations.len();
        for &(visit, _) in &self.entered {
            // Nobody is followed by two, so what leads back leads back to the first.
            let first = agent_of(visit);
            let mut agent = first;
            while self.seen[agent as usize] != step && self.ahead[agent as usize].0 == step {
                self.seen[agent as usize] = step;
                agent = self.ahead[agent as usize].1;
                if agent == first {
                    rotations.push((step, self.ring(first)));
                }
            }
        }
        rotations[found..].sort_unstable();
        self.entered.clear();
    }

    /// The agents of a ring, from the least on.
    fn ring(&self, first: u32) -> Vec<u16> {
        let next = |agent: &u32| Some(self.ahead[*agent as usize].1).filter(|&next| next != first);
        let mut agents: Vec<u16> = std::iter::successors(Some(first), next).map(|agent| agent as u16).collect();
        let least = agents.iter().enumerate().min_by_key(|(_, agent)| **agent).map_or(0, |(at, _)| at);
        agents.rotate_left(least);
        agents
    }
}

fn write(graph: &Graph, file: File) -> io::Result<()> {
    let mut out = Output::new(file);
    let agents = graph.waits.len();
    out.put_number(b"agents ", agents as u32);
    out.put_number(b" moves ", graph.needs.len() as u32);
    out.put_number(b" needs ", graph.need_count as u32);
    out.put_number(b" rotations ", graph.rotations.len() as u32);
    out.end_line()?;
    for agent in (0..agents).filter(|&agent| graph.waits[agent]) {
        for number in 0..graph.moves(agent) {
            if let Some(need) = graph.need(agent, number) {
                out.put_number(b"need ", agent as u32);
                out.put_number(b" ", number);
                out.put_number(b" ", need.agent.into());
                out.put_number(b" ", need.count.into());
                out.end_line()?;
            }
        }
    }
    for (step, agents) in &graph.rotations {
        out.put_number(b"rotation ", *step);
        for &agent in agents {
            out.put_number(b" ", agent.into());
        }
        out.end_line()?;
    }
    out.hand_on()
}

/// Writes what the moves of a plan wait for, and its rotations.
pub fn tell(map: File, plan: File, output: impl FnOnce() -> io::Result<File>) -> Result<(), Fault> {
    let (width, height, plan) = plan::read_checked(map, plan)?;
    let graph = Graph::of(&plan, width, height);
    drop(plan);
    output().and_then(|file| write(&graph, file)).map_err(|_| Fault::Device("WriteFailed"))
}
