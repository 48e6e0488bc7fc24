//! Plans: their text, and the checker.
use crate::check::check;
use crate::map;
use crate::source::{fault, Fault, Source};
use std::fs::File;
use std::io::{BufRead, Read};

const MOST_AGENTS: u64 = 10_000;
const MOST_ACTS: usize = 65_535;
const MOST_ACTS_IN_ALL: usize = 16_777_216;
const LONGEST_LINE: usize = 65_553;

pub struct Plan {
    pub number: u32,
    pub starts: Vec<(u16, u16)>,
    /// The acts of all agents, as their characters, and where each agent's end.
    pub acts: Vec<u8>,
    pub ends: Vec<usize>,
}

impl Plan {
    /// The acts of an agent.
    pub fn acts_of(&self, agent: usize) -> &[u8] {
        let from = if agent == 0 { 0 } else { self.ends[agent - 1] };
        &self.acts[from..self.ends[agent]]
    }

    /// The least time from which an agent stays for ever.
    pub fn cost_of(&self, agent: usize) -> usize {
        self.acts_of(agent).iter().rposition(|&b| b != b'-').map_or(0, |at| at + 1)
    }
}

/// The place of the first LF, by the search that the standard library has for readers.
fn line_feed(bytes: &[u8]) -> Option<usize> {
    let mut rest = bytes;
    let passed = rest.skip_until(b'\n').ok()?.checked_sub(1)?;
    (bytes[passed] == b'\n').then_some(passed)
}

/// Takes a line into `line`, without its LF.
fn take_line<R: Read>(source: &mut Source<R>, line: &mut Vec<u8>, number: u64) -> Result<(), Fault> {
    line.clear();
    loop {
        let piece = source.fill()?;
        if piece.is_empty() {
            return fault("Unfinished", &[number]);
        }
        let room = LONGEST_LINE + 1 - line.len();
        let most = &piece[..piece.len().min(room)];
        if let Some(at) = line_feed(most) {
            line.extend_from_slice(&most[..at]);
            source.start += at + 1;
            return Ok(());
        }
        let taken = most.len();
        line.extend_from_slice(most);
        source.start += taken;
        if line.len() > LONGEST_LINE {
            return fault("TooMany", &[number]);
        }
    }
}

fn numeral(digits: &[u8]) -> Option<u64> {
    if digits.is_empty() || (digits.len() > 1 && digits[0] == b'0') {
        return None;
    }
    digits.iter().try_fold(0u64, |n, b| {
        b.is_ascii_digit().then(|| n.saturating_mul(10).saturating_add(u64::from(b - b'0')))
    })
}

fn read_plan(file: File) -> Result<Plan, Fault> {
    // There are fewer acts than bytes. Memory that no act is put into is not touched.
    let room = file.metadata().map_or(0, |about| about.len() as usize).min(MOST_ACTS_IN_ALL);
    let mut source = Source::new(file);
    let mut line = Vec::with_capacity(LONGEST_LINE + 1);
    take_line(&mut source, &mut line, 1)?;
    if line != b"mapf-plan 1" {
        return fault("BadHeader", &[1]);
    }
    take_line(&mut source, &mut line, 2)?;
    let Some(digits) = line.strip_prefix(b"number ") else {
        return fault("BadHeader", &[2]);
    };
    let Some(plan_number) = numeral(digits).and_then(|n| u32::try_from(n).ok()) else {
        return fault("BadNumber", &[2]);
    };
    take_line(&mut source, &mut line, 3)?;
    let Some(digits) = line.strip_prefix(b"agents ") else {
        return fault("BadHeader", &[3]);
    };
    let Some(count) = numeral(digits) else {
        return fault("BadNumber", &[3]);
    };
    if count > MOST_AGENTS {
        return fault("TooMany", &[3]);
    }
    let mut plan = Plan { number: plan_number, starts: Vec::new(), acts: Vec::with_capacity(room), ends: Vec::new() };
    for agent in 0..count {
        let number = agent + 4;
        take_line(&mut source, &mut line, number)?;
        read_agent(&line, number, &mut plan)?;
    }
    if !source.fill()?.is_empty() {
        return fault("TextAfter", &[count + 4]);
    }
    Ok(plan)
}

fn is_act(b: u8) -> bool {
    (b == b'n') | (b == b'e') | (b == b's') | (b == b'w') | (b == b'-')
}

fn read_agent(line: &[u8], number: u64, plan: &mut Plan) -> Result<(), Fault> {
    let mut parts = line.splitn(4, |&b| b == b' ');
    let (Some(b"agent"), Some(x), Some(y), Some(acts)) = (parts.next(), parts.next(), parts.next(), parts.next()) else {
        return fault("BadAgent", &[number]);
    };
    if x.is_empty() || y.is_empty() || acts.is_empty() || acts.contains(&b' ') {
        return fault("BadAgent", &[number]);
    }
    let coordinate = |digits| numeral(digits).and_then(|n| u16::try_from(n).ok());
    let (Some(x), Some(y)) = (coordinate(x), coordinate(y)) else {
        return fault("BadNumber", &[number]);
    };
    plan.starts.push((x, y));
    if acts != b"=" {
        // All bytes are judged, so that many are at once.
        if !acts.iter().fold(true, |all, &b| all & is_act(b)) {
            let at = acts.iter().take_while(|&&b| is_act(b)).count();
            return fault("BadAct", &[number, (line.len() - acts.len() + at + 1) as u64]);
        }
        if acts.len() > MOST_ACTS || plan.acts.len() + acts.len() > MOST_ACTS_IN_ALL {
            return fault("TooMany", &[number]);
        }
        plan.acts.extend_from_slice(acts);
    }
    plan.ends.push(plan.acts.len());
    Ok(())
}

/// A plan that is valid on the map, with the map's width and height.
pub fn read_checked(map: File, plan: File) -> Result<(usize, usize, Plan), Fault> {
    let (width, height, _, plan) = read_with_cells(map, plan)?;
    Ok((width, height, plan))
}

/// The same with the map's cells before the plan.
pub fn read_with_cells(map: File, plan: File) -> Result<(usize, usize, Vec<u8>, Plan), Fault> {
    let (width, height, cells) = map::read_map(map)?;
    let plan = read_plan(plan)?;
    let (width, height) = (width as usize, height as usize);
    match check(width, height, &cells, &plan) {
        Some((name, numbers)) => fault(name, &numbers),
        None => Ok((width, height, cells, plan)),
    }
}

/// What finds a plan's fault, by the map's width, height and cells.
pub type Checker = fn(usize, usize, &[u8], &Plan) -> Option<(&'static str, Vec<u64>)>;

/// The line of a plan's verdict, and whether it is accepted.
pub fn judge(map: File, plan: File, checker: Checker) -> Result<(String, bool), Fault> {
    let (width, height, cells) = map::read_map(map)?;
    let plan = read_plan(plan)?;
    let (width, height) = (width as usize, height as usize);
    if let Some((name, numbers)) = checker(width, height, &cells, &plan) {
        let numbers: String = numbers.iter().map(|n| format!(" {n}")).collect();
        return Ok((format!("rejected {name}{numbers}"), false));
    }
    let (mut sum, mut makespan) = (0, 0);
    for agent in 0..plan.starts.len() {
        let cost = plan.cost_of(agent);
        sum += cost;
        makespan = makespan.max(cost);
    }
    Ok((format!("accepted agents {} cost {sum} makespan {makespan}", plan.starts.len()), true))
}
