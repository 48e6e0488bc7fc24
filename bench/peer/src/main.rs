//! A plain Rust program that does the work of `mapf map`, `mapf scen`, `mapf row`, `mapf rows`, `mapf check`, `mapf deps`, `mapf optimal` and `mapf run`, to measure it beside: it reads a text,
//! checks it and writes it in canonical form, with the same faults, or solves rows of a scenario, with no certificate.
mod buckets;
mod check;
mod crowd;
mod deps;
mod ground;
mod jumps;
mod map;
mod onward;
mod optimal;
mod output;
mod paces;
mod pairs;
mod plan;
mod row;
mod rows;
mod run;
mod scen;
mod search;
mod source;
mod stamped;
mod stops;
mod toward;
mod walks;

use rows::Way;
use source::Fault;
use std::fs::File;
use std::io::{self, Write};
use std::process::ExitCode;

/// Standard output without the buffer of a line.
fn output() -> io::Result<File> {
    use std::os::fd::AsFd;
    Ok(File::from(io::stdout().as_fd().try_clone_to_owned()?))
}

fn open(path: &str) -> Result<File, Fault> {
    File::open(path).map_err(|_| Fault::Device("OpenFailed"))
}

/// Does the work of a command; the answer is whether its result is a good one. `None`: there is no such command.
fn run(words: &[&str]) -> Result<Option<bool>, Fault> {
    let failed = |_| Fault::Device("WriteFailed");
    match *words {
        ["map", path] => {
            let (width, height, lines) = map::read_lines(open(path)?)?;
            map::write_map(output().map_err(failed)?, width, height, &lines).map_err(failed)?;
            Ok(Some(true))
        }
        ["scen", path] => {
            let rows = scen::read_scen(open(path)?)?;
            scen::write_scen(output().map_err(failed)?, &rows).map_err(failed)?;
            Ok(Some(true))
        }
        ["row", map, scen, number] => {
            let (line, good) = row::solve(open(map)?, open(scen)?, number)?;
            writeln!(output().map_err(failed)?, "{line}").map_err(failed)?;
            Ok(Some(good))
        }
        ["rows", map, scen] => rows::solve(open(map)?, open(scen)?, Way::Toward, output).map(Some),
        ["rows", map, scen, "--straight"] => rows::solve(open(map)?, open(scen)?, Way::Straight, output).map(Some),
        ["rows", map, scen, "--jump"] => rows::solve(open(map)?, open(scen)?, Way::Jump, output).map(Some),
        [command @ ("check" | "pairs"), map, plan] => {
            let checker = if command == "check" { check::check } else { pairs::check };
            let (line, good) = plan::judge(open(map)?, open(plan)?, checker)?;
            writeln!(output().map_err(failed)?, "{line}").map_err(failed)?;
            Ok(Some(good))
        }
        ["deps", map, plan] => {
            deps::tell(open(map)?, open(plan)?, output)?;
            Ok(Some(true))
        }
        ["optimal", map, plan, proof] => {
            let (line, good) = optimal::prove(open(map)?, open(plan)?, open(proof)?)?;
            writeln!(output().map_err(failed)?, "{line}").map_err(failed)?;
            Ok(Some(good))
        }
        ["run", map, plan, events] => Ok(Some(run::replay(open(map)?, open(plan)?, open(events)?, false, output)?)),
        ["run", map, plan, events, "--complete"] => Ok(Some(run::replay(open(map)?, open(plan)?, open(events)?, true, output)?)),
        _ => Ok(None),
    }
}

fn main() -> ExitCode {
    let words: Vec<String> = std::env::args().skip(1).collect();
    let words: Vec<&str> = words.iter().map(String::as_str).collect();
    match run(&words) {
        Ok(Some(true)) => ExitCode::SUCCESS,
        Ok(Some(false)) => ExitCode::from(1),
        Ok(None) => {
            eprintln!("usage: peer map FILE | peer scen FILE | peer row MAP SCEN N | peer rows MAP SCEN [--straight | --jump] | peer check MAP PLAN | peer pairs MAP PLAN | peer deps MAP PLAN | peer optimal MAP PLAN PROOF | peer run MAP PLAN EVENTS [--complete]");
            ExitCode::from(2)
        }
        Err(Fault::Text(text)) => {
            eprintln!("mapf: {text}");
            ExitCode::from(1)
        }
        Err(Fault::Device(name)) => {
            eprintln!("mapf: {name}");
            ExitCode::from(3)
        }
    }
}
