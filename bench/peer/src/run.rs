//! Runs of agents over a plan's graph: events in, replies out.
use crate::deps::Graph;
use crate::output::Output;
use crate::plan::{self, Plan};
use crate::source::{fault, Fault, Source};
use std::fs::File;
use std::io;

mod complete;

const LONGEST_LINE: usize = 64;
/// The first line but for its version and its LF.
const HEADER: &[u8] = b"mapf-events ";
const RECORD: u8 = 10;

/// A cell as one number: its row in the upper 16 bits, its column in the lower.
type Cell = u32;

/// By how much each act changes a cell.
fn leads() -> [Cell; 256] {
    let mut by_act = [0; 256];
    by_act[usize::from(b'n')] = (1u32 << 16).wrapping_neg();
    by_act[usize::from(b'e')] = 1;
    by_act[usize::from(b's')] = 1 << 16;
    by_act[usize::from(b'w')] = 1u32.wrapping_neg();
    by_act
}

/// The cells of all paths, one path behind the other: an agent's begin as many places behind its first move among all as there are agents before it.
fn paths_of(plan: &Plan, moves: usize) -> Vec<Cell> {
    let leads = leads();
    let mut cells = Vec::with_capacity(moves + plan.starts.len());
    for (agent, &(x, y)) in plan.starts.iter().enumerate() {
        let mut cell = Cell::from(y) << 16 | Cell::from(x);
        cells.push(cell);
        for &act in plan.acts_of(agent).iter().filter(|&&act| act != b'-') {
            cell = cell.wrapping_add(leads[usize::from(act)]);
            cells.push(cell);
        }
    }
    cells
}

/// An agent: which moves are its own, how many records its tape has, what it heard, and how its next write ends.
struct Agent {
    /// Its first move among all, and how many it makes.
    first: u32,
    moves: u32,
    records: u32,
    broken: bool,
    armed: Option<u8>,
    heard: Vec<(u16, u32)>,
}

impl Agent {
    fn done(&self) -> u32 {
        self.records / 2
    }

    fn is_moving(&self) -> bool {
        self.records % 2 == 1
    }

    fn known(&self, agent: u16) -> u32 {
        match self.heard.binary_search_by_key(&agent, |&(other, _)| other) {
            Ok(at) => self.heard[at].1,
            Err(_) => 0,
        }
    }

    fn hear(&mut self, agent: u16, done: u32) -> u32 {
        match self.heard.binary_search_by_key(&agent, |&(other, _)| other) {
            Ok(at) => {
                let known = &mut self.heard[at].1;
                *known = done.max(*known);
                *known
            }
            Err(at) => {
                self.heard.insert(at, (agent, done));
                done
            }
        }
    }

    /// Raises what was heard by entries in order of agents, all at once where one of them is new.
    fn hear_all(&mut self, entries: &[(u16, u32)]) {
        let mut at = 0;
        let mut all_known = true;
        for &(agent, done) in entries {
            at += self.heard[at..].iter().take_while(|&&(other, _)| other < agent).count();
            match self.heard.get_mut(at) {
                Some((other, known)) if *other == agent => *known = done.max(*known),
                _ => all_known = false,
            }
        }
        if all_known {
            return;
        }
        let mut merged = Vec::with_capacity(self.heard.len() + entries.len());
        let mut rest = self.heard.as_slice();
        for &(agent, done) in entries {
            let lesser = rest.iter().take_while(|&&(other, _)| other < agent).count();
            merged.extend_from_slice(&rest[..lesser]);
            rest = &rest[lesser..];
            match rest.first() {
                Some(&(other, known)) if other == agent => {
                    merged.push((agent, known));
                    rest = &rest[1..];
                }
                _ => merged.push((agent, done)),
            }
        }
        merged.extend_from_slice(rest);
        self.heard = merged;
    }

    /// Writes the next record; false where that fails.
    fn store(&mut self) -> bool {
        match self.armed.take() {
            None => {
                self.records += 1;
                true
            }
            Some(stored) => {
                self.records += u32::from(stored == RECORD);
                self.broken = true;
                false
            }
        }
    }
}

/// A message: its sender, and what that one had finished, or where its entries begin and how many there are.
struct Message {
    sender: u16,
    count: u32,
    first: usize,
}

struct Runner<'g> {
    graph: &'g Graph,
    cells: Vec<Cell>,
    number: u32,
    agents: Vec<Agent>,
    /// Whether messages have all that their sender knows (version 2).
    tells: bool,
    /// Who said what.
    messages: Vec<Message>,
    /// What was told, one message's entries behind the other's.
    entries: Vec<(u16, u32)>,
    out: Output,
}

enum Event {
    Start,
    Finish,
    Say,
    Deliver(u64),
    Restart,
    Tear(u64),
}

/// Takes a numeral of at most so much and the byte that ends it, and gives what comes behind.
#[inline(always)]
fn take_number(text: &[u8], most: u64, end: u8) -> Option<(u64, &[u8])> {
    let mut value = 0u64;
    let mut at = 0;
    loop {
        let byte = *text.get(at)?;
        let digit = byte.wrapping_sub(b'0');
        if digit > 9 {
            let is_one = at == 1 || (at > 1 && text[0] != b'0');
            return (is_one && value <= most && byte == end).then(|| (value, &text[at + 1..]));
        }
        value = value.checked_mul(10)?.checked_add(digit.into())?;
        at += 1;
    }
}

const MOST: u64 = u32::MAX as u64;

/// The agent and the event of the line that a text begins with, and what comes behind its LF.
#[inline(always)]
fn take_event(text: &[u8]) -> Option<(u64, Event, &[u8])> {
    let (event, rest) = match *text {
        [b's', b't', b'a', b'r', b't', b' ', ref rest @ ..] => (Event::Start, rest),
        [b'f', b'i', b'n', b'i', b's', b'h', b' ', ref rest @ ..] => (Event::Finish, rest),
        [b's', b'a', b'y', b' ', ref rest @ ..] => (Event::Say, rest),
        [b'd', b'e', b'l', b'i', b'v', b'e', b'r', b' ', ref rest @ ..] => {
            let (agent, rest) = take_number(rest, MOST, b' ')?;
            let (message, rest) = take_number(rest, u64::MAX, b'\n')?;
            return Some((agent, Event::Deliver(message), rest));
        }
        [b'r', b'e', b's', b't', b'a', b'r', b't', b' ', ref rest @ ..] => (Event::Restart, rest),
        [b't', b'e', b'a', b'r', b' ', ref rest @ ..] => {
            let (agent, rest) = take_number(rest, MOST, b' ')?;
            let (stored, rest) = take_number(rest, MOST, b'\n')?;
            return Some((agent, Event::Tear(stored), rest));
        }
        _ => return None,
    };
    let (agent, rest) = take_number(rest, MOST, b'\n')?;
    Some((agent, event, rest))
}

impl Runner<'_> {
    /// The n-th cell of an agent's path.
    fn cell(&self, i: usize, n: u32) -> Cell {
        self.cells[self.agents[i].first as usize + i + n as usize]
    }

    fn put_cell(&mut self, cell: Cell) {
        self.out.put_number(b" ", cell & 0xFFFF);
        self.out.put_number(b" ", cell >> 16);
    }

    fn refuse(&mut self, name: &str) {
        self.out.word(b"refused ");
        self.out.word(name.as_bytes());
    }

    #[inline(always)]
    fn answer(&mut self, agent: u64, event: Event) {
        if agent >= self.agents.len() as u64 {
            return self.refuse("NoSuchAgent");
        }
        let i = agent as usize;
        match event {
            Event::Start => self.start(i),
            Event::Finish => self.finish(i),
            Event::Say => self.say(i),
            Event::Deliver(message) => self.deliver(i, message),
            Event::Restart => self.restart(i),
            Event::Tear(stored) => self.tear(i, stored),
        }
    }

    fn start(&mut self, i: usize) {
        let agent = &mut self.agents[i];
        let done = agent.done();
        if agent.broken {
            return self.refuse("Broken");
        }
        if agent.is_moving() {
            return self.refuse("AlreadyMoving");
        }
        if done == agent.moves {
            return self.refuse("AtEnd");
        }
        if let Some(need) = self.graph.need_of(agent.first + done) {
            if agent.known(need.agent) < u32::from(need.count) {
                self.refuse("Waits");
                self.out.put_number(b" ", need.agent.into());
                return self.out.put_number(b" ", need.count.into());
            }
        }
        if agent.store() {
            self.out.word(b"moving");
            self.put_cell(self.cell(i, done + 1));
        } else {
            self.refuse("StoreFailed");
        }
    }

    fn finish(&mut self, i: usize) {
        let agent = &mut self.agents[i];
        if agent.broken {
            return self.refuse("Broken");
        }
        if !agent.is_moving() {
            return self.refuse("NotMoving");
        }
        if agent.store() {
            let done = agent.done();
            self.out.word(b"arrived");
            self.put_cell(self.cell(i, done));
        } else {
            self.refuse("StoreFailed");
        }
    }

    fn say(&mut self, i: usize) {
        let agent = &self.agents[i];
        if agent.broken {
            return self.refuse("Broken");
        }
        let done = agent.done();
        self.out.put_long(b"said ", self.messages.len() as u64);
        self.out.word(b" ");
        if self.tells {
            return self.tell(i, done);
        }
        let mut bytes = [0x46, 1, 0, 0, 0, 0, 0, 0, 0, 0, 0, 0];
        bytes[2..4].copy_from_slice(&(i as u16).to_be_bytes());
        bytes[4..8].copy_from_slice(&self.number.to_be_bytes());
        bytes[8..].copy_from_slice(&done.to_be_bytes());
        self.out.put_digits(&bytes);
        self.messages.push(Message { sender: i as u16, count: done, first: 0 });
    }

    fn tell(&mut self, i: usize, done: u32) {
        let id = i as u16;
        let heard = &self.agents[i].heard;
        let own = heard.partition_point(|&(other, _)| other < id);
        let behind = own + usize::from(heard.get(own).is_some_and(|&(other, _)| other == id));
        let of_itself = [(id, done)];
        let first = self.entries.len();
        let known = heard[..own].iter().chain(&of_itself).chain(&heard[behind..]).filter(|entry| entry.1 > 0);
        self.entries.extend(known.copied());
        let entries = &self.entries[first..];
        let count = entries.len() as u16;
        let mut head = [0x46, 2, 0, 0, 0, 0, 0, 0, 0, 0];
        head[2..4].copy_from_slice(&id.to_be_bytes());
        head[4..8].copy_from_slice(&self.number.to_be_bytes());
        head[8..].copy_from_slice(&count.to_be_bytes());
        self.out.put_digits(&head);
        for &(agent, done) in entries {
            let mut bytes = [0; 6];
            bytes[..2].copy_from_slice(&agent.to_be_bytes());
            bytes[2..].copy_from_slice(&done.to_be_bytes());
            self.out.put(b"");
            self.out.put_digits(&bytes);
        }
        self.messages.push(Message { sender: id, count: count.into(), first });
    }

    fn deliver(&mut self, i: usize, message: u64) {
        let Some(&Message { sender, count, first }) = usize::try_from(message).ok().and_then(|at| self.messages.get(at)) else {
            return self.refuse("NoSuchMessage");
        };
        if self.agents[i].broken {
            return self.refuse("Broken");
        }
        let known = if self.tells {
            self.agents[i].hear_all(&self.entries[first..first + count as usize]);
            self.agents[i].known(sender)
        } else {
            self.agents[i].hear(sender, count)
        };
        self.out.put_number(b"heard ", sender.into());
        self.out.put_number(b" ", known);
    }

    fn restart(&mut self, i: usize) {
        let agent = &mut self.agents[i];
        agent.heard.clear();
        agent.broken = false;
        agent.armed = None;
        let (done, is_moving) = (agent.done(), agent.is_moving());
        self.out.word(if is_moving { b"between" } else { b"at" });
        self.put_cell(self.cell(i, done));
        if is_moving {
            self.put_cell(self.cell(i, done + 1));
        }
        self.out.put_number(b" done ", done);
    }

    fn tear(&mut self, i: usize, stored: u64) {
        if stored > u64::from(RECORD) {
            return self.refuse("BadTear");
        }
        self.agents[i].armed = Some(stored as u8);
        self.out.word(b"armed");
    }
}

/// Answers the events of a file, each when it is read.
fn answer_all(runner: &mut Runner<'_>, events: File) -> Result<(), Fault> {
    let mut source = Source::new(events);
    let header = source.ahead(HEADER.len() + 2)?;
    runner.tells = header.starts_with(b"mapf-events 2\n");
    if !runner.tells && !header.starts_with(b"mapf-events 1\n") {
        return fault("NoHeader", &[]);
    }
    source.start += HEADER.len() + 2;
    for number in 2.. {
        let text = source.ahead(LONGEST_LINE + 1)?;
        if text.is_empty() {
            break;
        }
        let Some((agent, event, rest)) = take_event(text) else {
            let is_whole = text.len() > LONGEST_LINE || text.contains(&b'\n');
            return fault(if is_whole { "BadEvent" } else { "Unfinished" }, &[number]);
        };
        source.start += text.len() - rest.len();
        runner.answer(agent, event);
        runner.out.end_line().map_err(|_| Fault::Device("WriteFailed"))?;
    }
    Ok(())
}

/// Answers the events of a file over a map and a plan, and perhaps says how the run ends; false where it is blocked.
pub fn replay(map: File, plan: File, events: File, complete: bool, output: impl FnOnce() -> io::Result<File>) -> Result<bool, Fault> {
    let (width, height, plan) = plan::read_checked(map, plan)?;
    let graph = Graph::of(&plan, width, height);
    let agent_at = |i| Agent { first: graph.first_move(i), moves: graph.moves(i), records: 0, broken: false, armed: None, heard: Vec::new() };
    let agents = (0..plan.starts.len()).map(agent_at).collect();
    let (cells, number) = (paths_of(&plan, graph.all_moves()), plan.number);
    drop(plan);
    let file = output().map_err(|_| Fault::Device("WriteFailed"))?;
    let mut runner = Runner { graph: &graph, cells, number, agents, tells: false, messages: Vec::new(), entries: Vec::new(), out: Output::new(file) };
    let failed = |_| Fault::Device("WriteFailed");
    let mut ended = answer_all(&mut runner, events).map(|()| true);
    if complete && ended.is_ok() {
        ended = runner.complete().map_err(failed);
    }
    runner.out.hand_on().map_err(failed)?;
    ended
}
