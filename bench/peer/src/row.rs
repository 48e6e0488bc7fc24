//! A row of a scenario, solved on a map.
use crate::map::read_map;
use crate::scen::{read_scen, written_listed, Row};
use crate::search::search;
use crate::source::{fault, Fault};
use std::fs::File;

/// Whether `n / 10^decimals` is the length to within one unit of the last decimal.
pub fn agrees(row: &Row, (straight, diagonal): (u32, u32)) -> bool {
    let unit = 10i128.pow(u32::from(row.decimals));
    let (whole, root) = (unit * i128::from(straight), unit * i128::from(diagonal));
    // Whether root times the root of two is at most a number.
    let root_fits = |most: i128| most >= 0 && 2 * root * root <= most * most;
    let root_reaches = |least: i128| least <= 0 || least * least <= 2 * root * root;
    let listed = i128::from(row.listed);
    root_fits(listed + 1 - whole) && root_reaches(listed - 1 - whole)
}

/// What `mapf row` writes, but with no certificate of it; whether the length is the listed one.
pub fn solve(map: File, scen: File, number: &str) -> Result<(String, bool), Fault> {
    let (width, height, cells) = read_map(map)?;
    let rows = read_scen(scen)?.rows;
    let Some(row) = number.parse().ok().and_then(|n: usize| rows.get(n)) else {
        return fault("NoSuchRow", &[]);
    };
    if (u64::from(row.width), u64::from(row.height)) != (width, height) {
        return Err(Fault::Text(format!("SizeDiffers {number}")));
    }
    let (width, height) = (width as usize, height as usize);
    let found = search(width, height, &cells, row.start, row.goal);
    let Some(found) = found else {
        return Ok(("unreachable".to_string(), false));
    };
    std::hint::black_box(&found.walk);
    let agrees = agrees(row, found.length);
    let word = if agrees { "agrees" } else { "differs" };
    let (straight, diagonal) = found.length;
    Ok((format!("shortest {straight} {diagonal} listed {} {word}", written_listed(row)), agrees))
}
