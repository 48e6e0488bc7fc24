//! Scenarios.
use crate::source::{fault, Fault, Source, PIECE};
use std::io::{self, Read, Write};

const LONGEST_LINE: usize = 4096;

pub struct Row {
    bucket: u32,
    /// The number of its name among those of the scenario.
    name: u32,
    pub width: u32,
    pub height: u32,
    pub start: (u16, u16),
    pub goal: (u16, u16),
    pub listed: u64,
    pub decimals: u8,
}

/// Rows, and the names of their maps, each kept once where rows side by side share it.
pub struct Scenario {
    pub rows: Vec<Row>,
    names: Vec<Box<[u8]>>,
}

impl Scenario {
    fn push(&mut self, row: Row, name: &[u8]) {
        if self.names.last().is_none_or(|last| **last != *name) {
            self.names.push(name.into());
        }
        self.rows.push(Row { name: self.names.len() as u32 - 1, ..row });
    }
}

/// The first place of a byte, eight bytes at a time.
fn place_of(byte: u8, bytes: &[u8]) -> Option<usize> {
    const LOW: u64 = 0x0101_0101_0101_0101;
    let wanted = LOW * u64::from(byte);
    let mut words = bytes.chunks_exact(8);
    let mut at = 0;
    for word in &mut words {
        let apart = u64::from_le_bytes(word.try_into().unwrap()) ^ wanted;
        let found = apart.wrapping_sub(LOW) & !apart & (LOW << 7);
        if found != 0 {
            return Some(at + found.trailing_zeros() as usize / 8);
        }
        at += 8;
    }
    words.remainder().iter().position(|&b| b == byte).map(|rest| at + rest)
}

/// Calls `take` with each line, without its LF and with its number. A line that lies whole in a piece is not copied.
fn for_each_line<R: Read>(reader: R, mut take: impl FnMut(&[u8], u64) -> Result<(), Fault>) -> Result<(), Fault> {
    let mut source = Source::new(reader);
    let mut kept = Vec::with_capacity(LONGEST_LINE);
    let mut number = 1;
    loop {
        let mut rest = source.fill()?;
        if rest.is_empty() {
            return take(&kept, number);
        }
        let taken = rest.len();
        while let Some(end) = place_of(b'\n', rest) {
            if kept.len() + end > LONGEST_LINE {
                return fault("LineTooLong", &[number]);
            }
            if kept.is_empty() {
                take(&rest[..end], number)?;
            } else {
                kept.extend_from_slice(&rest[..end]);
                take(&kept, number)?;
                kept.clear();
            }
            rest = &rest[end + 1..];
            number += 1;
        }
        if kept.len() + rest.len() > LONGEST_LINE {
            return fault("LineTooLong", &[number]);
        }
        kept.extend_from_slice(rest);
        source.start += taken;
    }
}

fn is_blank(b: &u8) -> bool {
    matches!(b, b' ' | b'\t')
}

fn trim_start(bytes: &[u8]) -> &[u8] {
    &bytes[bytes.iter().position(|b| !is_blank(b)).unwrap_or(bytes.len())..]
}

fn trim_end(bytes: &[u8]) -> &[u8] {
    &bytes[..bytes.iter().rposition(|b| !is_blank(b)).map_or(0, |last| last + 1)]
}

fn is_version(content: &[u8]) -> bool {
    content.strip_prefix(b"version").is_some_and(|rest| {
        let number = trim_start(rest);
        number.len() < rest.len() && (number == b"1" || number == b"1.0")
    })
}

fn nine_fields(content: &[u8]) -> Option<[&[u8]; 9]> {
    let separator = if place_of(b'\t', content).is_some() { b'\t' } else { b' ' };
    let mut fields: [&[u8]; 9] = [&[]; 9];
    let mut rest = content;
    for field in &mut fields {
        rest = trim_start(rest);
        if rest.is_empty() {
            return None;
        }
        let end = place_of(separator, rest).unwrap_or(rest.len());
        *field = trim_end(&rest[..end]);
        rest = &rest[end..];
    }
    trim_start(rest).is_empty().then_some(fields)
}

/// The value of digits alone; one that is too large for all limits is the greatest number.
fn number(bytes: &[u8]) -> Option<u64> {
    let (mut value, mut is_other) = (0u64, bytes.is_empty());
    for b in bytes {
        let digit = b.wrapping_sub(b'0');
        is_other |= digit > 9;
        value = value.wrapping_mul(10).wrapping_add(u64::from(digit));
    }
    if is_other {
        return None;
    }
    let is_long = bytes.len() > 19 && bytes.len() - bytes.iter().take_while(|&&b| b == b'0').count() > 19;
    Some(if is_long { u64::MAX } else { value })
}

/// The powers of ten.
const UNITS: [u64; 13] = {
    let mut units = [1; 13];
    let mut i = 1;
    while i < 13 {
        units[i] = units[i - 1] * 10;
        i += 1;
    }
    units
};

fn listed(bytes: &[u8]) -> Option<(u64, u8)> {
    let point = place_of(b'.', bytes);
    let (whole, decimals) = match point {
        Some(point) => (&bytes[..point], &bytes[point + 1..]),
        None => (bytes, &bytes[bytes.len()..]),
    };
    if whole.is_empty() || whole.len() > 7 || decimals.len() > 12 || (point.is_some() && decimals.is_empty()) {
        return None;
    }
    let unit = UNITS[decimals.len()];
    let value = number(whole)? * unit + if decimals.is_empty() { 0 } else { number(decimals)? };
    Some((value, decimals.len() as u8))
}

/// Takes a numeral of at most nine digits and the tab behind it.
#[inline(always)]
fn take_number(rest: &mut &[u8]) -> Option<u32> {
    let mut value = 0;
    for at in 0..=9 {
        let byte = *rest.get(at)?;
        let digit = byte.wrapping_sub(b'0');
        if digit > 9 {
            *rest = &rest[at + 1..];
            return (at > 0 && byte == b'\t').then_some(value);
        }
        value = value * 10 + u32::from(digit);
    }
    None
}

/// The fields of a row as it mostly is: a tab behind each, and short numbers within their limits. Any other row is read by its fields.
fn usual_row(content: &[u8]) -> Option<(Row, &[u8])> {
    let mut rest = content;
    let bucket = take_number(&mut rest)?;
    let end = place_of(b'\t', rest)?;
    let name = &rest[..end];
    rest = &rest[end + 1..];
    if name.is_empty() || name[0] == b' ' || name[end - 1] == b' ' {
        return None;
    }
    let [width, height] = [take_number(&mut rest)?, take_number(&mut rest)?];
    let start = (take_number(&mut rest)?, take_number(&mut rest)?);
    let goal = (take_number(&mut rest)?, take_number(&mut rest)?);
    let is_within = |(x, y): (u32, u32)| x < width && y < height;
    if width > 65_535 || height > 65_535 || !is_within(start) || !is_within(goal) {
        return None;
    }
    let (listed, decimals) = listed(rest)?;
    let cell = |(x, y)| (x as u16, y as u16);
    Some((Row { bucket, name: 0, width, height, start: cell(start), goal: cell(goal), listed, decimals }, name))
}

fn read_row(content: &[u8], line: u64, scenario: &mut Scenario) -> Result<(), Fault> {
    if let Some((row, name)) = usual_row(content) {
        scenario.push(row, name);
        return Ok(());
    }
    let Some(fields) = nine_fields(content) else {
        return fault("FieldCount", &[line]);
    };
    let mut numbers = [0; 8];
    for (i, most) in [(0, u64::from(u32::MAX)), (2, 65_535), (3, 65_535), (4, u64::MAX), (5, u64::MAX), (6, u64::MAX), (7, u64::MAX)] {
        match number(fields[i]) {
            Some(value) if value <= most && (value > 0 || !matches!(i, 2 | 3)) => numbers[i] = value,
            _ => return fault("BadNumber", &[line, i as u64 + 1]),
        }
    }
    let [bucket, _, width, height, start_x, start_y, goal_x, goal_y] = numbers;
    if start_x >= width || start_y >= height || goal_x >= width || goal_y >= height {
        return fault("OutOfGrid", &[line]);
    }
    let Some((listed, decimals)) = listed(fields[8]) else {
        return fault("BadLength", &[line]);
    };
    let row = Row {
        bucket: bucket as u32,
        name: 0,
        width: width as u32,
        height: height as u32,
        start: (start_x as u16, start_y as u16),
        goal: (goal_x as u16, goal_y as u16),
        listed,
        decimals,
    };
    scenario.push(row, fields[1]);
    Ok(())
}

pub fn read_scen<R: Read>(reader: R) -> Result<Scenario, Fault> {
    let mut scenario = Scenario { rows: Vec::new(), names: Vec::new() };
    let mut has_version = false;
    for_each_line(reader, |line, number| {
        let content = line.strip_suffix(b"\r").unwrap_or(line);
        let content = trim_end(trim_start(content));
        if content.is_empty() {
            return Ok(());
        }
        if has_version {
            return read_row(content, number, &mut scenario);
        }
        has_version = is_version(content);
        if has_version { Ok(()) } else { fault("NoVersion", &[]) }
    })?;
    if has_version { Ok(scenario) } else { fault("NoVersion", &[]) }
}

/// The digits of 00 to 99.
const PAIRS: [u8; 200] = {
    let mut pairs = [0; 200];
    let mut i = 0;
    while i < 100 {
        pairs[2 * i] = b'0' + (i / 10) as u8;
        pairs[2 * i + 1] = b'0' + (i % 10) as u8;
        i += 1;
    }
    pairs
};

fn put_number(piece: &mut Vec<u8>, mut value: u64) {
    let mut digits = [0; 20];
    let mut at = digits.len();
    while value >= 100 {
        let pair = 2 * (value % 100) as usize;
        value /= 100;
        at -= 2;
        digits[at..at + 2].copy_from_slice(&PAIRS[pair..pair + 2]);
    }
    if value >= 10 {
        let pair = 2 * value as usize;
        at -= 2;
        digits[at..at + 2].copy_from_slice(&PAIRS[pair..pair + 2]);
    } else {
        at -= 1;
        digits[at] = b'0' + value as u8;
    }
    piece.extend_from_slice(&digits[at..]);
}

fn put_listed(piece: &mut Vec<u8>, listed: u64, decimals: u8) {
    let unit = UNITS[usize::from(decimals)];
    put_number(piece, listed / unit);
    if decimals > 0 {
        // The 1 in front keeps the zeros, and gives way to the point.
        let at = piece.len();
        put_number(piece, unit + listed % unit);
        piece[at] = b'.';
    }
}

/// The listed length of a row, as it is written.
pub fn written_listed(row: &Row) -> String {
    let mut text = Vec::new();
    put_listed(&mut text, row.listed, row.decimals);
    String::from_utf8_lossy(&text).into_owned()
}

pub fn write_scen<W: Write>(mut writer: W, scenario: &Scenario) -> io::Result<()> {
    let mut piece = Vec::with_capacity(PIECE + LONGEST_LINE);
    piece.extend_from_slice(b"version 1\n");
    for row in &scenario.rows {
        put_number(&mut piece, u64::from(row.bucket));
        piece.push(b'\t');
        piece.extend_from_slice(&scenario.names[row.name as usize]);
        for value in [row.width, row.height, row.start.0.into(), row.start.1.into(), row.goal.0.into(), row.goal.1.into()] {
            piece.push(b'\t');
            put_number(&mut piece, u64::from(value));
        }
        piece.push(b'\t');
        put_listed(&mut piece, row.listed, row.decimals);
        piece.push(b'\n');
        if piece.len() >= PIECE {
            writer.write_all(&piece)?;
            piece.clear();
        }
    }
    writer.write_all(&piece)?;
    writer.flush()
}
