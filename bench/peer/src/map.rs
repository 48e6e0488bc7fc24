//! Maps.
use crate::source::{fault, Fault, Source};
use std::io::{self, Read, Write};

const MOST_SIDE: u64 = 65_535;
const MOST_CELLS: u64 = 4_194_304;

/// Whether a byte is a terrain character, without a branch.
fn is_terrain(b: u8) -> bool {
    (b == b'.') | (b == b'G') | (b == b'@') | (b == b'O') | (b == b'T') | (b == b'S') | (b == b'W')
}

/// How many bytes at the front are terrain characters, by blocks that the compiler compares at once.
fn terrain_run(bytes: &[u8]) -> usize {
    const BLOCK: usize = 64;
    let mut run = 0;
    for block in bytes.chunks_exact(BLOCK) {
        if !block.iter().fold(true, |all, &b| all & is_terrain(b)) {
            break;
        }
        run += BLOCK;
    }
    let rest = &bytes[run..];
    run + rest.iter().position(|&b| !is_terrain(b)).unwrap_or(rest.len())
}

/// The bytes of a header line without its line end and the blanks before that.
fn header_line<R: Read>(source: &mut Source<R>, number: u64) -> Result<Vec<u8>, Fault> {
    let mut line = Vec::new();
    let mut some = false;
    while let Some(byte) = source.next()? {
        some = true;
        if byte == b'\n' {
            break;
        }
        line.push(byte);
    }
    if !some {
        return fault("BadHeader", &[number]);
    }
    if line.last() == Some(&b'\r') {
        line.pop();
    }
    while matches!(line.last(), Some(b' ' | b'\t')) {
        line.pop();
    }
    Ok(line)
}

/// What follows the word and at least one blank, without the blanks before it.
fn after_word<'a>(line: &'a [u8], word: &[u8]) -> Option<&'a [u8]> {
    let rest = line.strip_prefix(word)?;
    let value = rest.iter().position(|b| !matches!(b, b' ' | b'\t'))?;
    (value > 0).then(|| &rest[value..])
}

fn size(line: &[u8], word: &[u8], number: u64) -> Result<u64, Fault> {
    let Some(value) = after_word(line, word) else {
        return fault("BadHeader", &[number]);
    };
    if !value.iter().all(u8::is_ascii_digit) {
        return fault("BadNumber", &[number]);
    }
    let size = value.iter().fold(0, |n, b| (n * 10 + u64::from(b - b'0')).min(MOST_SIDE + 1));
    match size {
        0 => fault("BadNumber", &[number]),
        1..=MOST_SIDE => Ok(size),
        _ => fault("TooLarge", &[number]),
    }
}

/// What comes where a line end is due.
enum End {
    Line,
    Input,
    Other,
}

fn line_end<R: Read>(source: &mut Source<R>) -> Result<End, Fault> {
    Ok(match source.next()? {
        None => End::Input,
        Some(b'\n') => End::Line,
        Some(b'\r') => match source.next()? {
            None | Some(b'\n') => End::Line,
            Some(_) => End::Other,
        },
        Some(_) => End::Other,
    })
}

fn read_row<R: Read>(source: &mut Source<R>, cells: &mut Vec<u8>, width: usize, line: u64) -> Result<(), Fault> {
    let mut count = 0;
    while count < width {
        let bytes = source.fill()?;
        let room = &bytes[..bytes.len().min(width - count)];
        let run = terrain_run(room);
        cells.extend_from_slice(&room[..run]);
        source.start += run;
        count += run;
        if run == 0 {
            return match line_end(source)? {
                End::Input if count == 0 => fault("MissingRows", &[line]),
                End::Line | End::Input => fault("ShortRow", &[line]),
                End::Other => fault("BadTerrain", &[line, count as u64 + 1]),
            };
        }
    }
    match line_end(source)? {
        End::Line | End::Input => Ok(()),
        End::Other => fault("LongRow", &[line]),
    }
}

/// The width, the height and the cells, row behind row.
pub fn read_map<R: Read>(reader: R) -> Result<(u64, u64, Vec<u8>), Fault> {
    read_rows(reader, b"")
}

/// The width, the height and the lines of the rows, as they are written.
pub fn read_lines<R: Read>(reader: R) -> Result<(u64, u64, Vec<u8>), Fault> {
    read_rows(reader, b"\n")
}

/// The same with these bytes behind each row.
fn read_rows<R: Read>(reader: R, end: &[u8]) -> Result<(u64, u64, Vec<u8>), Fault> {
    let mut source = Source::new(reader);
    if after_word(&header_line(&mut source, 1)?, b"type") != Some(b"octile") {
        return fault("BadHeader", &[1]);
    }
    let height = size(&header_line(&mut source, 2)?, b"height", 2)?;
    let width = size(&header_line(&mut source, 3)?, b"width", 3)?;
    if width * height > MOST_CELLS {
        return fault("TooLarge", &[3]);
    }
    if header_line(&mut source, 4)? != b"map" {
        return fault("BadHeader", &[4]);
    }
    let mut cells = Vec::with_capacity((width as usize + end.len()) * height as usize);
    for row in 0..height {
        read_row(&mut source, &mut cells, width as usize, row + 5)?;
        cells.extend_from_slice(end);
    }
    let mut line = height + 5;
    while let Some(byte) = source.next()? {
        match byte {
            b'\n' => line += 1,
            b' ' | b'\t' | b'\r' => {}
            _ => return fault("TextAfter", &[line]),
        }
    }
    Ok((width, height, cells))
}

/// Writes a map by the lines of its rows.
pub fn write_map<W: Write>(mut writer: W, width: u64, height: u64, lines: &[u8]) -> io::Result<()> {
    writer.write_all(format!("type octile\nheight {height}\nwidth {width}\nmap\n").as_bytes())?;
    writer.write_all(lines)?;
    writer.flush()
}
