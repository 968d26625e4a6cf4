//! The calls of the trial program: as bytes, read back from them, and as text.

use crate::calls;
use crate::ffi::{Cell, Extent};
use std::fmt;

#[derive(Clone, Copy, PartialEq, Debug)]
pub enum Call {
    Open(Cell, Extent),
    Set(Cell, u16),
    Fill(Cell, Cell, u16),
    Refresh,
    Rate(u16, u32),
    Cut(u32),
}

/// By kind, from 1.
pub const NAMES: [&str; 6] = ["open", "set", "fill", "refresh", "rate", "cut"];

/// The bytes of a body, by kind from 1.
pub const BODIES: [usize; 6] = [24, 14, 26, 0, 6, 4];

fn body_of(kind: u8) -> Option<usize> {
    let at = usize::from(kind).checked_sub(1)?;
    BODIES.get(at).copied()
}

pub fn is_known(kind: u8) -> bool {
    body_of(kind).is_some()
}

impl Call {
    pub fn kind(&self) -> u8 {
        match self {
            Self::Open(..) => 1,
            Self::Set(..) => 2,
            Self::Fill(..) => 3,
            Self::Refresh => 4,
            Self::Rate(..) => 5,
            Self::Cut(..) => 6,
        }
    }

    pub fn bytes(&self) -> Vec<u8> {
        let body = match self {
            Self::Open(o, s) => [cell(o), triple([s.x, s.y, s.z])].concat(),
            Self::Set(c, finish) => [cell(c), finish.to_le_bytes().to_vec()].concat(),
            Self::Fill(a, b, finish) => [cell(a), cell(b), finish.to_le_bytes().to_vec()].concat(),
            Self::Refresh => Vec::new(),
            Self::Rate(finish, rate) => [&finish.to_le_bytes()[..], &rate.to_le_bytes()].concat(),
            Self::Cut(cut) => cut.to_le_bytes().to_vec(),
        };
        [vec![self.kind()], body].concat()
    }

    /// A whole body of a known kind.
    fn of(kind: u8, body: &[u8]) -> Self {
        let i32_at = |at: usize| u32_at(body, at) as i32;
        let cell = |at: usize| Cell {
            x: i32_at(at),
            y: i32_at(at + 4),
            z: i32_at(at + 8),
        };
        match kind {
            1 => {
                let Cell { x, y, z } = cell(12);
                Self::Open(cell(0), Extent { x, y, z })
            }
            2 => Self::Set(cell(0), u16_at(body, 12)),
            3 => Self::Fill(cell(0), cell(12), u16_at(body, 24)),
            4 => Self::Refresh,
            5 => Self::Rate(u16_at(body, 0), u32_at(body, 2)),
            _ => Self::Cut(u32_at(body, 0)),
        }
    }
}

fn triple(numbers: [i32; 3]) -> Vec<u8> {
    numbers.map(i32::to_le_bytes).concat()
}

fn cell(c: &Cell) -> Vec<u8> {
    triple([c.x, c.y, c.z])
}

fn u16_at(body: &[u8], at: usize) -> u16 {
    u16::from_le_bytes([body[at], body[at + 1]])
}

fn u32_at(body: &[u8], at: usize) -> u32 {
    u32::from(u16_at(body, at)) | u32::from(u16_at(body, at + 2)) << 16
}

/// What the input begins with.
pub enum Next<'a> {
    End,
    /// An unknown kind, or a body cut short.
    Broken,
    /// A call, and the input after it.
    Call(Call, &'a [u8]),
}

pub fn next(input: &[u8]) -> Next<'_> {
    let Some((kind, rest)) = input.split_first() else {
        return Next::End;
    };
    match body_of(*kind).and_then(|n| rest.split_at_checked(n)) {
        Some((body, rest)) => Next::Call(Call::of(*kind, body), rest),
        None => Next::Broken,
    }
}

/// A script taken apart: its calls, then the bytes that are none.
pub fn parts(script: &[u8]) -> (Vec<Call>, &[u8]) {
    let (mut calls, mut rest) = (Vec::new(), script);
    while let Next::Call(call, after) = next(rest) {
        calls.push(call);
        rest = after;
    }
    (calls, rest)
}

pub fn hex(bytes: &[u8]) -> String {
    bytes.iter().map(|b| format!("{b:02x}")).collect()
}

impl fmt::Display for Call {
    fn fmt(&self, f: &mut fmt::Formatter) -> fmt::Result {
        match *self {
            Self::Open(origin, size) => calls::Call::Open(origin, size).fmt(f),
            Self::Set(cell, finish) => calls::Call::Set(cell, finish).fmt(f),
            Self::Fill(from, to, finish) => calls::Call::Fill(from, to, finish).fmt(f),
            Self::Refresh => write!(f, "refresh"),
            Self::Rate(finish, rate) => write!(f, "rate of {finish}: {rate}"),
            Self::Cut(cut) => write!(f, "cut {cut}"),
        }
    }
}
