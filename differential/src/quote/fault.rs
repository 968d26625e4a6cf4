//! Faults put into the program's side: it is given the text that a faulty program would take the text for.

use super::line::{Line, Says};
use super::pen::LONGEST;
use super::text::Text;
use super::words::numbers;
use crate::theirs::Theirs;
use crate::trial::call::Call;
use crate::trial::program::open_code;

#[derive(Clone, Copy, PartialEq, Debug)]
pub enum Fault {
    /// Numbers with leading zeros read as octal.
    Octal,
    /// Numbers that wrap at 2^64.
    Wrapped,
    /// A bad line that is skipped.
    Skipped,
    /// Lines that say nothing, not counted.
    Uncounted,
    /// A last line without an end that is lost.
    Lost,
    /// A carriage return that is no blank.
    Carriage,
    /// A comment that must be alone in its line.
    Comment,
    /// A line too long that is cut.
    Cut,
    /// A fill beside the stand that reaches its rim.
    Rim,
}

pub const ALL: [Fault; 9] = [
    Fault::Octal,
    Fault::Wrapped,
    Fault::Skipped,
    Fault::Uncounted,
    Fault::Lost,
    Fault::Carriage,
    Fault::Comment,
    Fault::Cut,
    Fault::Rim,
];

impl Fault {
    pub fn taken(self, text: &Text) -> Text {
        let mut taken = text.clone();
        match self {
            Self::Uncounted => taken.lines.retain(|l| l.says != Says::Nothing),
            Self::Lost if !text.ended => drop(taken.lines.pop()),
            Self::Rim => clamp_fills(&mut taken.lines),
            _ => taken.lines.iter_mut().for_each(|l| self.spoil(l)),
        }
        taken
    }

    fn spoil(self, line: &mut Line) {
        let bytes = &mut line.bytes;
        match self {
            Self::Octal => *bytes = renumbered(bytes, octal),
            Self::Wrapped => *bytes = renumbered(bytes, wrapped),
            Self::Skipped if matches!(line.says, Says::Bad(_)) => bytes.clear(),
            Self::Carriage => replace(bytes, b'\r'),
            Self::Comment if line.says != Says::Nothing => replace(bytes, b'#'),
            Self::Cut => bytes.truncate(LONGEST),
            _ => {}
        }
    }
}

/// Each corner of a fill moved to the nearest cell of the stand.
fn clamp_fills(lines: &mut [Line]) {
    let mut stand = None;
    for line in lines {
        match (line.says, &stand) {
            (Says::Call(Call::Open(origin, size)), _) if open_code(origin, size) == 0 => {
                stand = Theirs::open(origin, size);
            }
            (Says::Call(Call::Fill(from, to, finish)), Some(stand)) => {
                line.bytes = plain(Call::Fill(stand.clamp(from), stand.clamp(to), finish));
            }
            _ => {}
        }
    }
}

/// A fill as a line.
fn plain(fill: Call) -> Vec<u8> {
    let words: Vec<String> = numbers(fill).iter().map(ToString::to_string).collect();
    format!("fill {}", words.join(" ")).into_bytes()
}

fn replace(bytes: &mut [u8], old: u8) {
    for byte in bytes.iter_mut().filter(|b| **b == old) {
        *byte = b'?';
    }
}

fn octal(digits: &str) -> String {
    let read = u64::from_str_radix(digits, 8).ok();
    let read = read.filter(|_| digits.starts_with('0'));
    read.map_or(digits.into(), |n| n.to_string())
}

fn wrapped(digits: &str) -> String {
    let digit = |b: u8| u64::from(b - b'0');
    let add = |n: u64, b: u8| n.wrapping_mul(10).wrapping_add(digit(b));
    digits.bytes().fold(0, add).to_string()
}

/// A line with its numbers read in another way.
fn renumbered(bytes: &[u8], read: fn(&str) -> String) -> Vec<u8> {
    let runs = bytes.chunk_by(|a, b| a.is_ascii_digit() == b.is_ascii_digit());
    let again = runs.map(|run| match str::from_utf8(run) {
        Ok(digits) if run[0].is_ascii_digit() => read(digits).into_bytes(),
        _ => run.to_vec(),
    });
    again.collect::<Vec<_>>().concat()
}
