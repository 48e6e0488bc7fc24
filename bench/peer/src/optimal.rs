//! Whether a proof holds that no valid plan costs less than a bound.
mod asked;
mod far;
mod least;
mod seen;
mod team;
mod text;

use crate::ground::{Cell, Ground};
use crate::plan::{self, Plan};
use crate::source::Fault;
use std::fs::File;
use team::Team;
use text::{Lines, Objective, Split};

const MOST_DEPTH: u32 = 65_535;

/// The second child of a node, which is still to be read: how many changes led to the node, and how many nodes are above the child.
struct Second {
    mark: usize,
    depth: u32,
    split: Split,
}

/// The tree of a proof while it is read.
struct Tree<'a> {
    width: u32,
    height: u32,
    team: Team<'a>,
    open: Vec<Second>,
    depth: u32,
}

impl Tree<'_> {
    /// Why a split can't be one of this plan on this map.
    fn refusal(&self, split: Split) -> Option<&'static str> {
        let (one, other, cells) = match split {
            Split::Vertex(i, j, _, cell) => (i, j, [cell; 2]),
            Split::Swap(i, j, _, from, to) => (i, j, [from, to]),
            Split::At(i, _, cell) => (i, i, [cell; 2]),
            Split::Goes(i, _, from, to) => (i, i, [from, to]),
            Split::Stays(i, _) => (i, i, [[0; 2]; 2]),
        };
        let is_on = |[x, y]: [u16; 2]| u32::from(x) < self.width && u32::from(y) < self.height;
        if one.max(other) as usize >= self.team.len() {
            Some("NoSuchAgent")
        } else if !cells.into_iter().all(is_on) {
            Some("OffMap")
        } else {
            None
        }
    }

    /// Goes on to the first child of a node.
    fn split(&mut self, split: Split) {
        self.depth += 1;
        self.open.push(Second { mark: self.team.mark(), depth: self.depth, split });
        self.team.go_first(split);
    }

    /// Goes on to the next node that isn't read yet, if there is one.
    fn turn_back(&mut self) -> bool {
        let Some(next) = self.open.pop() else {
            return false;
        };
        self.team.go_back(next.mark);
        self.team.go_second(next.split);
        self.depth = next.depth;
        true
    }
}

/// How many nodes hold, or why the first that doesn't is refused.
fn judge(lines: &mut Lines<File>, tree: &mut Tree, objective: Objective, bound: u64) -> Result<Result<u64, String>, Fault> {
    let mut nodes = 0;
    loop {
        let node = lines.node()?;
        nodes += 1;
        if tree.depth > MOST_DEPTH {
            return lines.too_deep();
        }
        if let Some(split) = node {
            if let Some(name) = tree.refusal(split) {
                return Ok(Err(format!("{name} {}", lines.count)));
            }
            tree.split(split);
            continue;
        }
        if let Some(least) = tree.team.least(objective).filter(|&it| it < bound) {
            return Ok(Err(format!("LeafTooLow {} {least}", lines.count)));
        }
        if !tree.turn_back() {
            lines.end()?;
            return Ok(Ok(nodes));
        }
    }
}

/// Where each agent starts, and where it stays in the end.
fn ends_of(plan: &Plan) -> Vec<(Cell, Cell)> {
    let goal = |agent: usize| {
        plan.acts_of(agent).iter().fold(plan.starts[agent], |(x, y), act| match act {
            b'n' => (x, y - 1),
            b'e' => (x + 1, y),
            b's' => (x, y + 1),
            b'w' => (x - 1, y),
            _ => (x, y),
        })
    };
    (0..plan.starts.len()).map(|agent| (plan.starts[agent], goal(agent))).collect()
}

/// The line of a proof's verdict, and whether it holds.
pub fn prove(map: File, plan: File, proof: File) -> Result<(String, bool), Fault> {
    let (width, height, cells, plan) = plan::read_with_cells(map, plan)?;
    let mut lines = Lines::new(proof);
    let (objective, bound) = lines.header()?;
    let ground = Ground::new(width, height, &cells);
    let team = Team::new(&ground, &ends_of(&plan), objective, bound);
    let mut tree = Tree { width: width as u32, height: height as u32, team, open: Vec::new(), depth: 0 };
    let nodes = match judge(&mut lines, &mut tree, objective, bound)? {
        Ok(nodes) => nodes,
        Err(refusal) => return Ok((format!("refused {refusal}"), false)),
    };
    let costs = (0..plan.starts.len()).map(|agent| plan.cost_of(agent) as u64);
    let (name, cost) = match objective {
        Objective::Cost => ("cost", costs.sum()),
        Objective::Makespan => ("makespan", costs.max().unwrap_or(0)),
    };
    let found = if bound == cost { "optimal".to_string() } else { format!("bound {bound}") };
    Ok((format!("{found} {name} {cost} nodes {nodes}"), true))
}
