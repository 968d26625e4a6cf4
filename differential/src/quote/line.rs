//! One line of a text, and what its maker knows that it says.

use super::bad::Bad;
use super::pen::{LONGEST, Pen};
use super::words::{numbers, places};
use crate::rng::Rng;
use crate::trial::call::{Call, NAMES};

#[derive(Clone, Copy, PartialEq)]
pub enum Says {
    Nothing,
    Call(Call),
    Bad(Bad),
}

#[derive(Clone, PartialEq)]
pub struct Line {
    /// Without the end.
    pub bytes: Vec<u8>,
    pub says: Says,
    /// What is unusual in it.
    pub marks: Vec<&'static str>,
}

impl Line {
    pub fn of_call(rng: &mut Rng, call: Call, carriage: bool) -> Self {
        let name = usize::from(call.kind()) - 1;
        fitting(|| {
            let mut pen = Pen::new(rng);
            pen.word(NAMES[name].as_bytes());
            for (place, number) in places(name).into_iter().zip(numbers(call)) {
                pen.number(place, number);
            }
            pen.end(Says::Call(call), carriage)
        })
    }

    /// A line with no word: empty, blanks, a comment.
    pub fn of_nothing(rng: &mut Rng, carriage: bool) -> Self {
        fitting(|| {
            let mut pen = Pen::new(rng);
            if pen.rng.chance(50) {
                pen.comment();
            }
            pen.end(Says::Nothing, carriage)
        })
    }
}

/// A line written anew until it is not too long.
pub fn fitting(mut write: impl FnMut() -> Line) -> Line {
    loop {
        let line = write();
        if line.bytes.len() <= LONGEST {
            return line;
        }
    }
}
