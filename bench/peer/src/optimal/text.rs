//! The text of a proof, line by line.
use crate::source::{Fault, Source};
use std::io::Read;

const LONGEST_LINE: usize = 128;
const MOST_NUMBERS: usize = 7;

/// What a bound is of.
#[derive(Clone, Copy, PartialEq)]
pub enum Objective {
    Cost,
    Makespan,
}

/// How a node splits the plans: the agents that it names, the time and the cells.
#[derive(Clone, Copy)]
pub enum Split {
    Vertex(u32, u32, u32, [u16; 2]),
    Swap(u32, u32, u32, [u16; 2], [u16; 2]),
    At(u32, u32, [u16; 2]),
    Goes(u32, u32, [u16; 2], [u16; 2]),
    Stays(u32, u32),
}

/// That a line is no such one. Only good texts are measured, so it isn't said why.
fn bad<T>(line: u64) -> Result<T, Fault> {
    Err(Fault::Text(format!("fault {line}")))
}

/// A number of at most ten digits.
#[inline(always)]
fn number(digits: &[u8], most: u64) -> Option<u64> {
    if digits.is_empty() || digits.len() > 10 || (digits.len() > 1 && digits[0] == b'0') {
        return None;
    }
    let number = digits.iter().try_fold(0, |sum, b| b.is_ascii_digit().then(|| sum * 10 + u64::from(b - b'0')))?;
    (number <= most).then_some(number)
}

/// The numbers behind a word, each after one space, and how many there are.
#[inline(always)]
fn numbers(mut rest: &[u8]) -> Option<([u16; MOST_NUMBERS], usize)> {
    let (mut found, mut count) = ([0; MOST_NUMBERS], 0);
    while let Some((b' ', behind)) = rest.split_first() {
        let len = behind.iter().position(|&b| b == b' ').unwrap_or(behind.len());
        *found.get_mut(count)? = number(&behind[..len], u16::MAX.into())? as u16;
        count += 1;
        rest = &behind[len..];
    }
    rest.is_empty().then_some((found, count))
}

fn are_beside([x, y]: [u16; 2], [u, v]: [u16; 2]) -> bool {
    u32::from(x.abs_diff(u)) + u32::from(y.abs_diff(v)) == 1
}

/// The split of a line that is no leaf.
#[inline(always)]
fn split_of(line: &[u8]) -> Option<Split> {
    let word = line.iter().position(|&b| b == b' ')?;
    let ([a, b, c, d, e, f, g], count) = numbers(&line[word..])?;
    let [i, j, t] = [a, b, c].map(u32::from);
    let split = match (&line[..word], count) {
        (b"vertex", 5) => Split::Vertex(i, j, t, [d, e]),
        (b"swap", 7) => Split::Swap(i, j, t, [d, e], [f, g]),
        (b"at", 4) => Split::At(i, j, [c, d]),
        (b"goes", 6) => Split::Goes(i, j, [c, d], [e, f]),
        (b"stays", 2) => Split::Stays(i, j),
        _ => return None,
    };
    let is_right = match split {
        Split::Vertex(i, j, _, _) => i != j,
        Split::Swap(i, j, _, from, to) => i != j && are_beside(from, to),
        Split::Goes(_, _, from, to) => are_beside(from, to),
        Split::At(_, _, _) | Split::Stays(_, _) => true,
    };
    is_right.then_some(split)
}

/// The lines of a proof.
pub struct Lines<R> {
    source: Source<R>,
    /// How many were read.
    pub count: u64,
}

impl<R: Read> Lines<R> {
    pub fn new(reader: R) -> Lines<R> {
        Lines { source: Source::new(reader), count: 0 }
    }

    /// What is made of the next line. None: it is no such line.
    #[inline(always)]
    fn next<T>(&mut self, made: impl FnOnce(&[u8]) -> Option<T>) -> Result<T, Fault> {
        self.count += 1;
        let bytes = self.source.ahead(LONGEST_LINE + 1)?;
        let most = bytes.len().min(LONGEST_LINE + 1);
        let Some(len) = bytes[..most].iter().position(|&b| b == b'\n') else {
            return bad(self.count);
        };
        let made = made(&bytes[..len]);
        self.source.start += len + 1;
        made.map_or_else(|| bad(self.count), Ok)
    }

    /// The objective and the bound.
    pub fn header(&mut self) -> Result<(Objective, u64), Fault> {
        self.next(|line| (line == b"mapf-proof 1").then_some(()))?;
        let objective = self.next(|line| match line {
            b"objective cost" => Some(Objective::Cost),
            b"objective makespan" => Some(Objective::Makespan),
            _ => None,
        })?;
        let bound = self.next(|line| number(line.strip_prefix(b"bound ")?, u32::MAX.into()))?;
        Ok((objective, bound))
    }

    /// The split of the next node; none of a leaf.
    #[inline(always)]
    pub fn node(&mut self) -> Result<Option<Split>, Fault> {
        self.next(|line| if line == b"leaf" { Some(None) } else { split_of(line).map(Some) })
    }

    /// Whether the text ends here.
    pub fn end(&mut self) -> Result<(), Fault> {
        if self.source.fill()?.is_empty() { Ok(()) } else { bad(self.count + 1) }
    }

    /// That a node lies too deep.
    pub fn too_deep<T>(&self) -> Result<T, Fault> {
        bad(self.count)
    }
}
