//! Every short list of calls on tiny stands.

use crate::calls::Call;
use crate::ffi::{Cell, Extent};
use crate::many::{Summary, run_lists};
use crate::run::{ALL, Options};

/// A stand, the calls that its lists are made of, and their greatest length.
struct Family {
    open: Call,
    calls: Vec<Call>,
    most: u32,
}

impl Family {
    fn lists(&self) -> u64 {
        (1..=self.most).map(|n| self.of_length(n)).sum()
    }

    fn of_length(&self, n: u32) -> u64 {
        (self.calls.len() as u64).pow(n)
    }

    /// The list of a number: shorter ones first.
    fn list(&self, mut number: u64) -> Vec<Call> {
        let mut length = 1;
        while number >= self.of_length(length) {
            number -= self.of_length(length);
            length += 1;
        }
        let mut list = vec![self.open];
        for _ in 0..length {
            let base = self.calls.len() as u64;
            list.push(self.calls[(number % base) as usize]);
            number /= base;
        }
        list
    }
}

fn cell(c: [i32; 3]) -> Cell {
    let [x, y, z] = c;
    Cell { x, y, z }
}

/// Sets of these cells to 0, 1 and 2, and fills between any two of them with 0 and 1.
fn family(origin: [i32; 3], size: [i32; 3], places: &[[i32; 3]], most: u32) -> Family {
    let at = |p: &[i32; 3]| cell([0, 1, 2].map(|a| origin[a].saturating_add(p[a])));
    let mut calls = Vec::new();
    for (i, p) in places.iter().enumerate() {
        calls.extend((0..3).map(|f| Call::Set(at(p), f)));
        for q in &places[i..] {
            calls.extend((0..2).map(|f| Call::Fill(at(q), at(p), f)));
        }
    }
    let [x, y, z] = size;
    let open = Call::Open(cell(origin), Extent { x, y, z });
    Family { open, calls, most }
}

fn families() -> Vec<Family> {
    let mut all = vec![family([0; 3], [1; 3], &[[0; 3], [1, 0, 0]], 4)];
    for axis in 0..3 {
        let along = |n: i32| {
            let mut p = [0; 3];
            p[axis] = n;
            p
        };
        let size = |n: i32| {
            let mut s = [1; 3];
            s[axis] = n;
            s
        };
        let pair = [-1, 0, 1, 2].map(along);
        for from in [0, i32::MIN, i32::MAX - 1] {
            all.push(family(along(from), size(2), &pair, 3));
        }
        all.push(family([0; 3], size(17), &[0, 15, 16, 17].map(along), 3));
    }
    let square = [[0, 0, 0], [1, 0, 0], [0, 0, 1], [1, 0, 1]];
    all.push(family([-1; 3], [2, 1, 2], &square, 3));
    all
}

/// Compares after the last call of each list: every beginning of a list is a list of its own.
pub fn run() -> Summary {
    let families = families();
    let options = Options { each: false, ..ALL };
    let lists = families.iter().map(Family::lists).sum();
    run_lists(lists, options, |mut number| {
        for family in &families {
            if number < family.lists() {
                return family.list(number);
            }
            number -= family.lists();
        }
        Vec::new()
    })
}
