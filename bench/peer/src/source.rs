//! The bytes of a reader, a piece at a time, and why a text is not read.
use std::io::{self, Read};

pub const PIECE: usize = 65_536;

pub enum Fault {
    Text(String),
    Device(&'static str),
}

impl From<io::Error> for Fault {
    fn from(_: io::Error) -> Fault {
        Fault::Device("ReadFailed")
    }
}

pub fn fault<T>(name: &str, numbers: &[u64]) -> Result<T, Fault> {
    let mut text = name.to_string();
    for number in numbers {
        text.push_str(&format!(" {number}"));
    }
    Err(Fault::Text(text))
}

pub struct Source<R> {
    reader: R,
    piece: Box<[u8]>,
    pub start: usize,
    end: usize,
}

impl<R: Read> Source<R> {
    pub fn new(reader: R) -> Source<R> {
        Source {
            reader,
            piece: vec![0; PIECE].into_boxed_slice(),
            start: 0,
            end: 0,
        }
    }

    /// The bytes at hand, read where there are none; empty at the end of the input.
    pub fn fill(&mut self) -> io::Result<&[u8]> {
        if self.start == self.end {
            self.start = 0;
            self.end = self.reader.read(&mut self.piece)?;
        }
        Ok(&self.piece[self.start..self.end])
    }

    /// So many bytes at hand at the least, fewer only at the end of the input.
    #[inline(always)]
    pub fn ahead(&mut self, count: usize) -> io::Result<&[u8]> {
        if self.end - self.start < count {
            self.bring(count)?;
        }
        Ok(&self.piece[self.start..self.end])
    }

    /// Brings more bytes, behind those that are left.
    #[cold]
    fn bring(&mut self, count: usize) -> io::Result<()> {
        self.piece.copy_within(self.start..self.end, 0);
        self.end -= self.start;
        self.start = 0;
        while self.end < count {
            match self.reader.read(&mut self.piece[self.end..])? {
                0 => break,
                more => self.end += more,
            }
        }
        Ok(())
    }

    pub fn next(&mut self) -> io::Result<Option<u8>> {
        let byte = self.fill()?.first().copied();
        self.start += usize::from(byte.is_some());
        Ok(byte)
    }
}
