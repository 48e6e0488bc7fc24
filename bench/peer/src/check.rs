//! The checker: a board of one byte a square says whether anything is wrong in a step, and only then it is asked what.
use crate::crowd::{leads, place_of, Crowd, BLOCK};
use crate::plan::Plan;
use std::collections::HashMap;

/// A square has a ground in its two low bits: blocked, land, water, or held by an agent that stays there for ever. In the next two bits stands when
/// somebody came there last: 1 or 2 by turns for this step and the one before, 0 for long ago; and above these, by which act.
const GROUND: u8 = 3;
const HELD: u8 = 3;
const CAME: u8 = 3 << 2;
const ACT_SHIFT: u32 = 4;

pub fn ground(terrain: u8) -> u8 {
    let land = (terrain == b'.') | (terrain == b'G') | (terrain == b'S');
    u8::from(land) | u8::from(terrain == b'W') << 1
}

/// What an act does: by how much the place changes, what it leaves where it leads, and what the opposite act leaves, which of a wait is nothing.
#[derive(Clone, Copy)]
struct Turn {
    by: u32,
    act: u8,
    against: u8,
}

fn turns(wide: u32) -> [Turn; 256] {
    let leads = leads(wide);
    std::array::from_fn(|act| {
        let code = b"nesw".iter().position(|&other| usize::from(other) == act).map_or(0, |at| 4 + at as u8);
        Turn { by: leads[act] << PLACE_SHIFT, act: code << ACT_SHIFT, against: (code ^ 2) << ACT_SHIFT }
    })
}

/// An agent that has acts left is its place, and its ground in the two low bits.
const PLACE_SHIFT: u32 = 2;

/// What stands for the time of a step, by turns.
fn time_of(step: usize) -> u8 {
    (1 + (step % 2) as u8) << 2
}

/// Takes all walkers a step on, and says whether something is wrong in it.
fn take_step(turns: &[Turn; 256], time: u8, (walkers, acts): (&mut [u32], &[u8]), board: &mut [u8]) -> bool {
    let mut is_wrong = false;
    for (walker, &act) in walkers.iter_mut().zip(acts) {
        let turn = turns[usize::from(act)];
        let ground = *walker as u8 & GROUND;
        let from = (*walker >> PLACE_SHIFT) as usize;
        *walker = walker.wrapping_add(turn.by);
        let to = (*walker >> PLACE_SHIFT) as usize;
        let (left, entered) = (board[from], board[to]);
        is_wrong |= (entered ^ ground) & GROUND != 0;
        is_wrong |= entered & CAME == time;
        is_wrong |= left & !GROUND == time | turn.against;
        board[from] = if left & CAME == time { left } else { ground };
        board[to] = ground | time | turn.act;
    }
    is_wrong
}

/// The least fault of a plan, with its numbers.
pub fn check(width: usize, height: usize, cells: &[u8], plan: &Plan) -> Option<(&'static str, Vec<u64>)> {
    let wide = width + 2;
    let mut board = vec![0; wide * (height + 2)];
    for (y, row) in cells.chunks_exact(width).enumerate() {
        let from = (y + 1) * wide + 1;
        for (square, &terrain) in board[from..from + width].iter_mut().zip(row) {
            *square = ground(terrain);
        }
    }
    let count = plan.starts.len();
    let mut walkers = Vec::with_capacity(count);
    for (agent, &(x, y)) in plan.starts.iter().enumerate() {
        let (x, y) = (usize::from(x), usize::from(y));
        if x >= width || y >= height || ground(cells[y * width + x]) == 0 {
            return Some(("BadStart", vec![agent as u64]));
        }
        let place = place_of(plan.starts[agent], wide as u32);
        walkers.push(place << PLACE_SHIFT | u32::from(board[place as usize]));
    }
    let turns = turns(wide as u32);
    let mut crowd = Crowd::new(plan, walkers);
    // All wait at their starts first, so that two that share one are seen.
    if take_step(&turns, time_of(1), crowd.step(0), &mut board) {
        return Some(least_fault(width, cells, plan, 0));
    }
    let mut step = 0;
    while !crowd.is_empty() {
        if step % BLOCK == 0 {
            crowd.prepare(step, |&walker| walker, |&walker| board[(walker >> PLACE_SHIFT) as usize] |= HELD);
        }
        if take_step(&turns, time_of(step), crowd.step(step % BLOCK), &mut board) {
            return Some(least_fault(width, cells, plan, step + 1));
        }
        step += 1;
    }
    None
}

/// The cells of all agents at a time; past its acts an agent stays.
fn cells_at(width: usize, plan: &Plan, time: usize) -> Vec<usize> {
    let place = |agent: usize| {
        let (x, y) = plan.starts[agent];
        let start = usize::from(y) * width + usize::from(x);
        plan.acts_of(agent).iter().take(time).fold(start, |at, act| match act {
            b'n' => at.wrapping_sub(width),
            b'e' => at + 1,
            b's' => at + width,
            b'w' => at.wrapping_sub(1),
            _ => at,
        })
    };
    (0..plan.starts.len()).map(place).collect()
}

/// The least fault of a time that has one, where none is before it.
fn least_fault(width: usize, cells: &[u8], plan: &Plan, time: usize) -> (&'static str, Vec<u64>) {
    let next = cells_at(width, plan, time);
    let now = if time == 0 { next.clone() } else { cells_at(width, plan, time - 1) };
    let step = time.wrapping_sub(1) as u64;
    for (agent, (&from, &to)) in now.iter().zip(&next).enumerate() {
        let act = if time == 0 { None } else { plan.acts_of(agent).get(time - 1) };
        let is_wrapped = (act == Some(&b'e') && to % width == 0) || (act == Some(&b'w') && from % width == 0);
        let is_other = cells.get(to).map_or(true, |&there| ground(there) != ground(cells[from]));
        if is_wrapped || is_other {
            return ("BadMove", vec![agent as u64, step]);
        }
    }
    let mut first: HashMap<usize, usize> = HashMap::new();
    let mut meets: Option<(usize, usize)> = None;
    for (agent, &at) in next.iter().enumerate() {
        let other = *first.entry(at).or_insert(agent);
        if other != agent && meets.map_or(true, |pair| (other, agent) < pair) {
            meets = Some((other, agent));
        }
    }
    if let Some((i, j)) = meets {
        let at = next[i];
        return ("Vertex", [i, j, time, at % width, at / width].iter().map(|&n| n as u64).collect());
    }
    let stood: HashMap<usize, usize> = now.iter().enumerate().map(|(agent, &at)| (at, agent)).collect();
    let swap = (0..now.len()).find_map(|i| {
        let j = *stood.get(&next[i])?;
        (j > i && next[j] == now[i]).then(|| vec![i as u64, j as u64, step])
    });
    ("Swap", swap.expect("no fault at a time that has one"))
}
