//! Writes a line word by word, in one of the many ways to write it.

use super::line::{Line, Says};
use super::words::Place::{self, Coordinate};
use crate::rng::Rng;

/// Bytes of the longest line, its end not counted.
pub const LONGEST: usize = 255;

const ZEROS: &str = "leading zeros";
const MINUS_ZERO: &str = "-0";
const BLANKS: &str = "a tab or carriage return between";
const COMMENT: &str = "a comment";
const CARRIAGE: &str = "a carriage return at the end";
const FULL: &str = "255 bytes";
const EMPTY: &str = "no byte";

pub const MARKS: [&str; 7] = [ZEROS, MINUS_ZERO, BLANKS, COMMENT, CARRIAGE, FULL, EMPTY];

pub struct Pen<'a> {
    pub rng: &'a mut Rng,
    bytes: Vec<u8>,
    marks: Vec<&'static str>,
}

impl<'a> Pen<'a> {
    pub fn new(rng: &'a mut Rng) -> Self {
        Self {
            rng,
            bytes: Vec::new(),
            marks: Vec::new(),
        }
    }

    fn mark(&mut self, applies: bool, mark: &'static str) {
        if applies && !self.marks.contains(&mark) {
            self.marks.push(mark);
        }
    }

    fn blanks(&mut self, least: i64) {
        let most = self.rng.pick(&[0, 0, 0, 0, 0, 0, 0, 2, 2, 12]);
        for _ in 0..self.rng.between(least, most.max(least)) {
            let other = self.rng.chance(10);
            let blank = if other { self.rng.pick(b"\t\r") } else { b' ' };
            self.mark(other, BLANKS);
            self.bytes.push(blank);
        }
    }

    pub fn word(&mut self, word: &[u8]) {
        self.blanks(i64::from(!self.bytes.is_empty()));
        self.bytes.extend_from_slice(word);
    }

    pub fn number(&mut self, place: Place, number: i64) {
        let minus = number < 0 || number == 0 && place == Coordinate && self.rng.chance(10);
        self.mark(minus && number == 0, MINUS_ZERO);
        let sign = if minus { "-" } else { "" };
        self.digits(sign, number.unsigned_abs().to_string());
    }

    /// A number, sometimes with zeros before it.
    pub fn digits(&mut self, sign: &str, digits: String) {
        let zeros = match self.rng.below(40) {
            0..4 => self.rng.between(1, 3) as usize,
            4 => self.rng.between(8, 30) as usize,
            _ => 0,
        };
        self.mark(zeros > 0, ZEROS);
        let word = sign.to_string() + &"0".repeat(zeros) + &digits;
        self.word(word.as_bytes());
    }

    /// A comment, with blanks before it or none.
    pub fn comment(&mut self) {
        self.blanks(0);
        let room = LONGEST.saturating_sub(self.bytes.len());
        let length = self.rng.pick(&[1, 2, 8, 30, room]);
        let begin: &[u8] = self
            .rng
            .pick(&[b"#", b"# 1 2 3 4 5 6 7", b"#refresh", b"##"]);
        let mut text = begin.to_vec();
        text.resize_with(length.max(1), || not_newline(self.rng));
        self.bytes.extend(text);
        self.mark(true, COMMENT);
    }

    pub fn end(mut self, says: Says, carriage: bool) -> Line {
        match self.rng.below(60) {
            0 => {
                let room = LONGEST - usize::from(carriage);
                let length = self.bytes.len().max(room);
                self.bytes.resize(length, b' ');
            }
            1..9 => self.comment(),
            _ => self.blanks(0),
        }
        self.mark(self.bytes.is_empty(), EMPTY);
        if carriage {
            self.bytes.push(b'\r');
        }
        self.mark(carriage, CARRIAGE);
        self.mark(self.bytes.len() == LONGEST, FULL);
        Line {
            bytes: self.bytes,
            says,
            marks: self.marks,
        }
    }
}

/// Any byte that a line can hold.
pub fn not_newline(rng: &mut Rng) -> u8 {
    match rng.next() as u8 {
        b'\n' => b'#',
        byte => byte,
    }
}
