//! The checker that planners often bring along: it compares the paths of all pairs of agents. Beside it one sees what a pass by time saves.
use crate::check::ground;
use crate::plan::Plan;

/// The place of an agent at a time; it stays at the end of its path.
fn at(path: &[u32], time: usize) -> u32 {
    path[time.min(path.len() - 1)]
}

/// The places of an agent at all times, or the first step that isn't legal.
fn path_of(width: usize, height: usize, cells: &[u8], plan: &Plan, agent: usize) -> Result<Vec<u32>, (&'static str, usize)> {
    let (mut x, mut y) = (usize::from(plan.starts[agent].0), usize::from(plan.starts[agent].1));
    if x >= width || y >= height || ground(cells[y * width + x]) == 0 {
        return Err(("BadStart", 0));
    }
    let mut path = vec![(y * width + x) as u32];
    for (step, act) in plan.acts_of(agent).iter().enumerate() {
        let from = y * width + x;
        match act {
            b'n' => y = y.wrapping_sub(1),
            b'e' => x += 1,
            b's' => y += 1,
            b'w' => x = x.wrapping_sub(1),
            _ => {}
        }
        if x >= width || y >= height || ground(cells[y * width + x]) != ground(cells[from]) {
            return Err(("BadMove", step));
        }
        path.push((y * width + x) as u32);
    }
    Ok(path)
}

/// Some fault of a plan: a bad start or step of the first agent that has one, or the first conflict of the first pair that has one.
pub fn check(width: usize, height: usize, cells: &[u8], plan: &Plan) -> Option<(&'static str, Vec<u64>)> {
    let mut paths = Vec::new();
    for agent in 0..plan.starts.len() {
        match path_of(width, height, cells, plan, agent) {
            Ok(path) => paths.push(path),
            Err(("BadStart", _)) => return Some(("BadStart", vec![agent as u64])),
            Err((name, step)) => return Some((name, vec![agent as u64, step as u64])),
        }
    }
    for (i, one) in paths.iter().enumerate() {
        for (j, other) in paths.iter().enumerate().skip(i + 1) {
            for time in 0..one.len().max(other.len()) {
                let (here, there) = (at(one, time), at(other, time));
                if here == there {
                    let (x, y) = (here as usize % width, here as usize / width);
                    return Some(("Vertex", vec![i as u64, j as u64, time as u64, x as u64, y as u64]));
                }
                if time > 0 && at(one, time - 1) == there && here == at(other, time - 1) {
                    return Some(("Swap", vec![i as u64, j as u64, time as u64 - 1]));
                }
            }
        }
    }
    None
}
