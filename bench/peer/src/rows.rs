//! All rows of a scenario, solved on a map that is read once.
use crate::ground::Ground;
use crate::jumps::Jumps;
use crate::map::read_map;
use crate::output::Output;
use crate::paces::Paces;
use crate::row::agrees;
use crate::scen::{Row, read_scen, written_listed};
use crate::source::Fault;
use crate::walks::Walks;
use std::fs::File;
use std::io;

/// How rows are solved.
#[derive(Clone, Copy, PartialEq, Eq)]
pub enum Way {
    /// By A*, to shortest walks.
    Toward,
    /// By jump points, to shortest walks.
    Jump,
    /// By A*, to the least number of straight steps.
    Straight,
}

/// How many rows there were, and of each kind.
#[derive(Default)]
struct Tally {
    rows: u64,
    agree: u64,
    differ: u64,
    unreachable: u64,
    size: u64,
    sum: u64,
    greatest: u64,
}

/// What came of a row.
enum Answer {
    Shortest((u32, u32)),
    Least(u32),
    Unreachable,
    SizeDiffers,
}

impl Tally {
    fn is_good(&self) -> bool {
        self.differ + self.unreachable + self.size == 0
    }

    fn put(&self, way: Way, output: &mut Output) {
        output.put_long(b"rows ", self.rows);
        if way == Way::Straight {
            output.put_long(b" sum ", self.sum);
            output.put_long(b" greatest ", self.greatest);
        } else {
            output.put_long(b" agree ", self.agree);
            output.put_long(b" differ ", self.differ);
        }
        output.put_long(b" unreachable ", self.unreachable);
        output.put_long(b" size ", self.size);
    }

    /// Counts a row, and puts its line.
    fn put_row(&mut self, row: &Row, answer: Answer, output: &mut Output) {
        output.put_long(b"", self.rows);
        self.rows += 1;
        match answer {
            Answer::Shortest(length) => self.put_shortest(row, length, output),
            Answer::Least(steps) => {
                output.put_number(b" least ", steps);
                self.sum += u64::from(steps);
                self.greatest = self.greatest.max(u64::from(steps));
            }
            Answer::Unreachable => {
                output.word(b" unreachable");
                self.unreachable += 1;
            }
            Answer::SizeDiffers => {
                output.word(b" SizeDiffers");
                self.size += 1;
            }
        }
    }

    fn put_shortest(&mut self, row: &Row, length: (u32, u32), output: &mut Output) {
        output.put_number(b" shortest ", length.0);
        output.put_number(b" ", length.1);
        output.word(b" listed ");
        output.word(written_listed(row).as_bytes());
        if agrees(row, length) {
            output.word(b" agrees");
            self.agree += 1;
        } else {
            output.word(b" differs");
            self.differ += 1;
        }
    }
}

/// What answers the rows.
enum Solver<'a> {
    Toward(Walks<'a>),
    Jump(Jumps<'a>),
    Straight(Paces),
}

impl<'a> Solver<'a> {
    fn of_walks(ground: &'a Ground, way: Way) -> Solver<'a> {
        if way == Way::Jump {
            Solver::Jump(Jumps::on(ground))
        } else {
            Solver::Toward(Walks::on(ground))
        }
    }

    fn answer(&mut self, row: &Row) -> Answer {
        let (start, goal) = (row.start, row.goal);
        match self {
            Solver::Toward(walks) => walks.shortest(start, goal).map(Answer::Shortest),
            Solver::Jump(jumps) => jumps.shortest(start, goal).map(Answer::Shortest),
            Solver::Straight(paces) => paces.least(start, goal).map(Answer::Least),
        }
        .unwrap_or(Answer::Unreachable)
    }
}

/// Writes what `mapf rows` writes, each line as soon as it is known, but with no certificate;
/// whether all rows are as they should be.
pub fn solve(
    map: File,
    scen: File,
    way: Way,
    output: impl FnOnce() -> io::Result<File>,
) -> Result<bool, Fault> {
    let (width, height, cells) = read_map(map)?;
    let rows = read_scen(scen)?.rows;
    let failed = |_| Fault::Device("WriteFailed");
    let mut output = Output::new(output().map_err(failed)?);
    let mut tally = Tally::default();
    let (columns, lines) = (width as usize, height as usize);
    let ground;
    let mut solver = if way == Way::Straight {
        Solver::Straight(Paces::on(columns, lines, &cells))
    } else {
        ground = Ground::new(columns, lines, &cells);
        Solver::of_walks(&ground, way)
    };
    for row in &rows {
        let is_for = (u64::from(row.width), u64::from(row.height)) == (width, height);
        let answer = if is_for {
            solver.answer(row)
        } else {
            Answer::SizeDiffers
        };
        tally.put_row(row, answer, &mut output);
        output.keep_line();
        output.hand_on().map_err(failed)?;
    }
    tally.put(way, &mut output);
    output.keep_line();
    output.hand_on().map_err(failed)?;
    Ok(tally.is_good())
}
