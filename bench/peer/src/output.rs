//! Text for a file.
use crate::source::PIECE;
use std::fs::File;
use std::io::{self, Write};

/// The four digits of each number below 10,000.
static FOUR: [[u8; 4]; 10_000] = {
    let mut four = [[0; 4]; 10_000];
    let mut n = 0;
    while n < 10_000 {
        four[n] = [b'0' + (n / 1000) as u8, b'0' + (n / 100 % 10) as u8, b'0' + (n / 10 % 10) as u8, b'0' + (n % 10) as u8];
        n += 1;
    }
    four
};

/// So much is always free behind the end of a line: what is put up to the next one by calls that ask for no room.
const MARGIN: usize = 512;

/// Collects text for a file.
pub struct Output {
    file: File,
    text: Vec<u8>,
    len: usize,
}

impl Output {
    pub fn new(file: File) -> Output {
        Output { file, text: vec![0; PIECE + MARGIN], len: 0 }
    }

    /// Puts bytes of any number.
    pub fn put(&mut self, bytes: &[u8]) {
        let least = self.len + bytes.len() + MARGIN;
        if self.text.len() < least {
            self.text.resize(2 * least, 0);
        }
        self.word(bytes);
    }

    /// Puts few bytes, for which there is room.
    #[inline(always)]
    pub fn word(&mut self, bytes: &[u8]) {
        self.text[self.len..self.len + bytes.len()].copy_from_slice(bytes);
        self.len += bytes.len();
    }

    /// A number below 10,000. Four bytes are put at once, and those too many taken back: that asks for no length.
    #[inline(always)]
    fn put_first(&mut self, number: u32) {
        let zeros = usize::from(number < 10) + usize::from(number < 100) + usize::from(number < 1000);
        let digits = u32::from_le_bytes(FOUR[number as usize]) >> (8 * zeros);
        self.word(&digits.to_le_bytes());
        self.len -= zeros;
    }

    #[inline(always)]
    pub fn put_number(&mut self, word: &[u8], number: u32) {
        self.word(word);
        if number < 10_000 {
            return self.put_first(number);
        }
        if number < 100_000_000 {
            self.put_first(number / 10_000);
        } else {
            self.put_first(number / 100_000_000);
            self.word(&FOUR[(number / 10_000 % 10_000) as usize]);
        }
        self.word(&FOUR[(number % 10_000) as usize]);
    }

    /// The same of a number that may be longer.
    #[inline]
    pub fn put_long(&mut self, word: &[u8], number: u64) {
        match u32::try_from(number) {
            Ok(number) => self.put_number(word, number),
            Err(_) => self.word(format!("{}{number}", String::from_utf8_lossy(word)).as_bytes()),
        }
    }

    /// Puts two digits for each of few bytes.
    #[inline(always)]
    pub fn put_digits(&mut self, bytes: &[u8]) {
        const DIGITS: &[u8; 16] = b"0123456789abcdef";
        let room = &mut self.text[self.len..self.len + 2 * bytes.len()];
        for (digits, byte) in room.chunks_exact_mut(2).zip(bytes) {
            digits[0] = DIGITS[usize::from(byte >> 4)];
            digits[1] = DIGITS[usize::from(byte & 15)];
        }
        self.len += 2 * bytes.len();
    }

    /// Sees to the room that the next line needs at the least, without handing anything on.
    #[inline(always)]
    pub fn keep_line(&mut self) {
        self.word(b"\n");
        self.put(b"");
    }

    #[inline(always)]
    pub fn end_line(&mut self) -> io::Result<()> {
        self.word(b"\n");
        if self.len >= PIECE {
            self.hand_on()?;
        }
        Ok(())
    }

    /// Takes back what was put and not handed on.
    pub fn take(&mut self) -> Vec<u8> {
        let mut taken = std::mem::replace(&mut self.text, vec![0; PIECE + MARGIN]);
        taken.truncate(std::mem::take(&mut self.len));
        taken
    }

    /// Writes bytes at once, behind what was handed on.
    pub fn write(&mut self, bytes: &[u8]) -> io::Result<()> {
        self.file.write_all(bytes)
    }

    pub fn hand_on(&mut self) -> io::Result<()> {
        self.file.write_all(&self.text[..std::mem::take(&mut self.len)])
    }
}
