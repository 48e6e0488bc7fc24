//! How a run goes on to its end: each agent in turn is driven there, after what its moves need.
use super::Runner;
use std::io;

/// A message that was said: its number, and how many moves its sender had finished.
#[derive(Clone, Copy)]
struct Said {
    number: u64,
    done: u32,
}

struct Completion<'r, 'g> {
    runner: &'r mut Runner<'g>,
    /// The last message of each agent.
    last: Vec<Option<Said>>,
    messages: u64,
    /// How many events were written.
    events: u64,
}

impl Completion<'_, '_> {
    fn put(&mut self, word: &[u8], agent: usize) {
        self.runner.out.put_number(word, agent as u32);
        self.runner.out.keep_line();
        self.events += 1;
    }

    /// Restarts an agent whose next write would fail, or that is broken.
    fn mend(&mut self, i: usize) {
        let agent = &mut self.runner.agents[i];
        if agent.broken || agent.armed.is_some() {
            agent.heard.clear();
            agent.broken = false;
            agent.armed = None;
            self.put(b"restart ", i);
        }
    }

    /// Brings to an agent that another has finished so many moves.
    fn bring(&mut self, i: usize, other: usize, count: u32) {
        let said = match self.last[other] {
            Some(said) if said.done >= count => said,
            _ => self.say(other),
        };
        self.runner.agents[i].hear(other as u16, said.done);
        self.runner.out.put_number(b"deliver ", i as u32);
        self.runner.out.put_long(b" ", said.number);
        self.runner.out.keep_line();
        self.events += 1;
    }

    fn say(&mut self, i: usize) -> Said {
        self.put(b"say ", i);
        let said = Said { number: self.messages, done: self.runner.agents[i].done() };
        self.messages += 1;
        self.last[i] = Some(said);
        said
    }

    /// Drives an agent until it has finished so many moves. Where another has to finish moves before, that one and how many are answered.
    fn drive(&mut self, i: usize, due: u32) -> Option<(usize, u32)> {
        loop {
            let agent = &self.runner.agents[i];
            let done = agent.done();
            if done >= due {
                return None;
            }
            if !agent.is_moving() {
                if let Some(need) = self.runner.graph.need(i, done) {
                    let (other, count) = (usize::from(need.agent), u32::from(need.count));
                    if agent.known(need.agent) < count {
                        if self.runner.agents[other].done() < count {
                            return Some((other, count));
                        }
                        self.bring(i, other, count);
                    }
                }
                self.put(b"start ", i);
            }
            self.put(b"finish ", i);
            self.runner.agents[i].records = 2 * (done + 1);
        }
    }

    /// Drives an agent to its end, and before each move the agents that it needs, as far as it needs them.
    fn drive_to_end(&mut self, i: usize, waiting: &mut Vec<(usize, u32)>) {
        waiting.push((i, self.runner.graph.moves(i)));
        while let Some(&(agent, due)) = waiting.last() {
            match self.drive(agent, due) {
                Some(before) => waiting.push(before),
                None => {
                    waiting.pop();
                }
            }
        }
    }
}

impl Runner<'_> {
    /// The last message of each agent.
    fn last_said(&self) -> Vec<Option<Said>> {
        let mut last = vec![None; self.agents.len()];
        for (message, number) in self.messages.iter().zip(0..) {
            let done = if self.tells {
                let entries = &self.entries[message.first..message.first + message.count as usize];
                entries.binary_search_by_key(&message.sender, |entry| entry.0).map_or(0, |at| entries[at].1)
            } else {
                message.count
            };
            last[usize::from(message.sender)] = Some(Said { number, done });
        }
        last
    }

    /// Writes the events that bring each agent to its end, or that a rotation is in the way; false for the latter.
    pub(super) fn complete(&mut self) -> io::Result<bool> {
        if self.graph.has_rotations() {
            self.out.put(b"blocked 0");
            self.out.end_line()?;
            return Ok(false);
        }
        self.out.hand_on()?;
        let (last, messages) = (self.last_said(), self.messages.len() as u64);
        let mut completion = Completion { runner: self, last, messages, events: 0 };
        let agents = completion.runner.agents.len();
        for i in 0..agents {
            completion.mend(i);
        }
        let mut waiting = Vec::new();
        for i in 0..agents {
            completion.drive_to_end(i, &mut waiting);
        }
        let events = completion.events;
        let lines = self.out.take();
        self.out.put_long(b"complete ", events);
        self.out.end_line()?;
        self.out.hand_on()?;
        self.out.write(&lines)?;
        Ok(true)
    }
}
