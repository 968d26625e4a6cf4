//! Scripts by their number: valid ones, refused ones, broken ones.

use super::author::Author;
use super::call::{BODIES, Call, is_known};
use crate::calls::{cell_of, extent_of};
use crate::rng::Rng;

pub const KINDS: [&str; 10] = [
    "document 01's example",
    "edits and refreshes",
    "enlarged in the middle",
    "cards changed",
    "refused calls",
    "cut short",
    "an unknown kind",
    "bytes changed",
    "random bytes",
    "random bytes after a beginning",
];

/// The kinds of twenty scripts that follow each other, the example aside.
const WHEEL: [usize; 20] = [1, 2, 3, 1, 2, 4, 1, 2, 5, 1, 2, 6, 1, 7, 2, 3, 8, 2, 4, 9];

pub struct Script {
    pub kind: &'static str,
    pub bytes: Vec<u8>,
}

/// Document 01's example, which gives `EXAMPLE_LINES`.
const EXAMPLE: [Call; 7] = [
    Call::Cut(50),
    Call::Rate(3, 100),
    Call::Open(cell_of([0; 3]), extent_of([17, 1, 1])),
    Call::Fill(cell_of([0; 3]), cell_of([16, 0, 0]), 3),
    Call::Refresh,
    Call::Set(cell_of([16, 0, 0]), 0),
    Call::Refresh,
];

pub const EXAMPLE_LINES: &str = "17 10 70 7500\n18 6 66 6900\n";

pub fn make(seed: u64, number: u64) -> Script {
    let turn = number / WHEEL.len() as u64;
    let mut kind = WHEEL[(number % WHEEL.len() as u64) as usize];
    if number == 0 {
        kind = 0;
    }
    let mut rng = Rng::of(seed, 5, number);
    let bytes = match kind {
        0 => EXAMPLE.iter().flat_map(Call::bytes).collect(),
        1 => edits(rng).bytes(),
        2 => enlarged(rng).bytes(),
        3 => cards(rng).bytes(),
        4 => refused(rng).bytes(),
        5 => cut_short(edits(rng), turn),
        6 => unknown(edits(rng)),
        7 => changed(edits(rng)),
        8 => noise(&mut rng),
        _ => beginning(edits(rng)),
    };
    Script {
        kind: KINDS[kind],
        bytes,
    }
}

fn length(rng: &mut Rng) -> usize {
    let most = rng.pick(&[10, 20, 30, 40, 60]);
    rng.between(6, most) as usize
}

fn edits(rng: Rng) -> Author {
    let mut a = Author::new(rng, false);
    let length = length(&mut a.rng);
    a.begin();
    while a.calls.len() < length {
        match a.rng.below(40) {
            0 => a.open(),
            1 => a.recard(),
            2 => a.refused_open(),
            3 => a.mend(),
            4 => a.bury(),
            _ => a.round(),
        }
    }
    a
}

/// The stand opened with another size, and the edits again.
fn enlarged(rng: Rng) -> Author {
    let mut a = Author::new(rng, false);
    a.begin();
    let first = a.calls.len();
    for _ in 0..a.rng.between(1, 3) {
        a.round();
    }
    let edits = a.calls[first..].to_vec();
    for _ in 0..a.rng.between(1, 2) {
        a.enlarge();
        let whole = a.rng.chance(70);
        for edit in &edits {
            if whole || a.rng.chance(70) {
                a.push(*edit);
            }
        }
        if !whole {
            a.push(Call::Refresh);
        }
        a.round();
    }
    a
}

fn cards(mut rng: Rng) -> Author {
    let rough = rng.chance(50);
    let mut a = Author::new(rng, rough);
    let length = length(&mut a.rng);
    a.begin();
    while a.calls.len() < length {
        match a.rng.below(10) {
            0 => a.open(),
            1..3 => a.recard(),
            3 => a.mend(),
            4 => a.bury(),
            _ => a.round(),
        }
    }
    a
}

/// Calls before an opening, and refused ones among the others.
fn refused(rng: Rng) -> Author {
    let mut a = Author::new(rng, true);
    let length = length(&mut a.rng);
    for _ in 0..a.rng.below(4) {
        match a.rng.below(4) {
            0 => a.refused_open(),
            1 => a.edit(),
            2 => a.recard(),
            _ => a.push(Call::Refresh),
        }
    }
    a.begin();
    while a.calls.len() < length {
        match a.rng.below(10) {
            0 => a.enlarge(),
            1..4 => a.refused_open(),
            4 => a.recard(),
            _ => a.round(),
        }
    }
    a
}

/// Each place within a body has its turn.
fn cut_short(mut a: Author, turn: u64) -> Vec<u8> {
    let mut have = turn as usize % BODIES.iter().sum::<usize>();
    let mut kind = 0;
    while have >= BODIES[kind] {
        have -= BODIES[kind];
        kind += 1;
    }
    let mut bytes = a.bytes();
    let last = a.one(kind as u8 + 1).bytes();
    bytes.extend_from_slice(&last[..=have]);
    bytes
}

/// An unknown kind somewhere between the calls.
fn unknown(mut a: Author) -> Vec<u8> {
    let at = a.rng.below(a.calls.len() as u64 + 1) as usize;
    let any = a.rng.next() as u8;
    let kinds = [0, 7, 8, 9, 128, 255, any];
    let kind = a.rng.pick(&kinds);
    let kind = if is_known(kind) { 7 } else { kind };
    let before = a.calls[..at].iter().flat_map(Call::bytes);
    let after = a.calls[at..].iter().flat_map(Call::bytes);
    before.chain([kind]).chain(after).collect()
}

/// A few bytes replaced, anywhere.
fn changed(mut a: Author) -> Vec<u8> {
    let mut bytes = a.bytes();
    for _ in 0..a.rng.between(1, 3) {
        let at = a.rng.below(bytes.len() as u64) as usize;
        let any = a.rng.next() as u8;
        let old = bytes[at];
        bytes[at] = a.rng.pick(&[0, 255, any, old ^ 1, old.wrapping_add(1)]);
    }
    bytes
}

fn beginning(mut a: Author) -> Vec<u8> {
    let mut bytes = a.bytes();
    bytes.extend(noise(&mut a.rng));
    bytes
}

/// Bytes of any value, or bodies of random bytes, many of them 0, after kinds.
fn noise(rng: &mut Rng) -> Vec<u8> {
    let length = rng.below(300) as usize;
    let shaped = rng.chance(70);
    let zeros = rng.pick(&[0, 60, 90]);
    let mut bytes = Vec::new();
    while bytes.len() < length {
        let any = rng.next() as u8;
        if !shaped || rng.chance(2) {
            bytes.push(any);
            continue;
        }
        let kind = any % 6;
        bytes.push(kind + 1);
        for _ in 0..BODIES[usize::from(kind)] {
            let any = rng.next() as u8;
            bytes.push(if rng.chance(zeros) { 0 } else { any });
        }
    }
    bytes
}
