//! A call as a name and numbers.

use crate::ffi::Cell;
use crate::trial::call::Call;

/// What a place of a call takes.
#[derive(Clone, Copy, PartialEq)]
pub enum Place {
    /// An i32.
    Coordinate,
    /// A u16.
    Finish,
    /// A u32.
    Cents,
}

use Place::{Cents, Coordinate, Finish};

impl Place {
    /// The least and the largest number.
    pub fn limits(self) -> (i64, i64) {
        match self {
            Coordinate => (i32::MIN.into(), i32::MAX.into()),
            Finish => (0, u16::MAX.into()),
            Cents => (0, u32::MAX.into()),
        }
    }
}

const CELL: &[Place] = &[Coordinate; 3];

/// The places of a call, by its name's index.
pub fn places(name: usize) -> Vec<Place> {
    match name {
        0 => [CELL, CELL].concat(),
        1 => [CELL, &[Finish]].concat(),
        2 => [CELL, CELL, &[Finish]].concat(),
        3 => Vec::new(),
        4 => vec![Finish, Cents],
        _ => vec![Cents],
    }
}

/// The numbers of a call, one for each place.
pub fn numbers(call: Call) -> Vec<i64> {
    let cell = |c: Cell| [c.x, c.y, c.z].map(i64::from).to_vec();
    match call {
        Call::Open(o, s) => [cell(o), [s.x, s.y, s.z].map(i64::from).to_vec()].concat(),
        Call::Set(c, finish) => [cell(c), vec![finish.into()]].concat(),
        Call::Fill(a, b, finish) => [cell(a), cell(b), vec![finish.into()]].concat(),
        Call::Refresh => Vec::new(),
        Call::Rate(finish, rate) => vec![finish.into(), rate.into()],
        Call::Cut(cut) => vec![cut.into()],
    }
}
