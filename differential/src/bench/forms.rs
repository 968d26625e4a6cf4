//! Stands kept in a file: stores, and loads beside the opening that zeroes the same lists.

use super::stand::at;
use crate::ffi::{Cell, Extent, Volume};
use crate::ours::{self, Storage};
use crate::rng::Rng;
use std::hint::black_box;
use std::time::Instant;

const TIMES: usize = 200;
/// Bytes of a cell in storage.
const CELL: f64 = 2.0;

/// A stand, its form, and the lists that the form is loaded into.
struct Filed {
    volume: Volume,
    storage: Storage,
    form: Vec<u8>,
    lists: Storage,
}

impl Filed {
    /// A stand of `edge` cells along each axis, their finishes given one after the other, x fastest.
    fn open(edge: i32, mut finish: impl FnMut() -> u16) -> Self {
        let size = Extent {
            x: edge,
            y: edge,
            z: edge,
        };
        let mut storage = Storage::dirty(ours::sections_of(size));
        let mut volume = ours::open(Cell::default(), size, &mut storage).volume;
        for n in 0..edge * edge * edge {
            let finish = finish();
            if finish != 0 {
                let cell = at(n % edge, n / edge % edge, n / edge / edge);
                ours::set_lent(&mut volume, &mut storage, cell, finish);
            }
        }
        let length = ours::stored_length(volume, &storage.cells).value;
        let lists = storage.clone();
        Self {
            volume,
            storage,
            form: vec![0; length as usize],
            lists,
        }
    }

    fn store(&mut self) {
        let done = ours::store(black_box(self.volume), &self.storage.cells, &mut self.form);
        assert_eq!((done.code, done.value), (0, self.form.len() as u64));
    }

    fn length(&mut self) {
        let done = ours::stored_length(black_box(self.volume), &self.storage.cells);
        assert_eq!(done.code, 0);
    }

    fn load(&mut self) {
        let done = ours::load(black_box(&self.form), &mut self.lists);
        assert_eq!(done.code, 0);
    }

    /// The opening of the same stand, which zeroes the same lists.
    fn zero(&mut self) {
        let v = black_box(self.volume);
        let done = ours::open(v.origin, v.size, &mut self.lists);
        assert_eq!(done.code, 0);
    }

    fn check(&mut self) {
        let done = ours::stored_header(black_box(&self.form));
        assert_eq!(done.code, 0);
    }
}

/// The least times of some calls, one call of each in turns.
fn least<const N: usize>(filed: &mut Filed, calls: [fn(&mut Filed); N]) -> [f64; N] {
    let mut least = [f64::MAX; N];
    for _ in 0..TIMES {
        for (least, call) in least.iter_mut().zip(calls) {
            let start = Instant::now();
            call(filed);
            *least = least.min(start.elapsed().as_nanos() as f64);
        }
    }
    least
}

pub fn table() {
    println!("\nStands kept in a file, each time the least of {TIMES} calls, ours alone");
    println!(
        "{:<22}{:>9}{:>12}{:>7}{:>12}{:>12}{:>13}{:>12}{:>9}",
        "stand",
        "occupied",
        "store, ns",
        "GB/s",
        "length, ns",
        "load, ns",
        "zeroing, ns",
        "header, ns",
        "ns/cell"
    );
    let rng = &mut Rng::of(4, 0, 0);
    row("27 sections, random", 48, || u16::from(rng.chance(50)) * 3);
    row("27 sections, solid", 48, || 3);
    row("27 sections, few", 48, || few(rng));
    row("4,096 sections, few", 256, || few(rng));
}

/// One in 1,000 occupied.
fn few(rng: &mut Rng) -> u16 {
    u16::from(rng.below(1_000) == 0) * 3
}

/// The goals: 1 GB of cells a second stored where few are occupied; 20 ns an occupied cell loaded beyond the zeroing.
fn row(name: &str, edge: i32, finish: impl FnMut() -> u16) {
    let mut filed = Filed::open(edge, finish);
    let [store, length] = least(&mut filed, [Filed::store, Filed::length]);
    let [load, zero, check] = least(&mut filed, [Filed::load, Filed::zero, Filed::check]);
    let (solid, cells) = (filed.volume.solid, filed.storage.cells.len());
    let rate = cells as f64 * CELL / store;
    let each = (load - zero) / solid as f64;
    let slow = (solid as usize) < cells / 100 && rate < 1.0;
    let word = if slow || each > 20.0 { "  missed" } else { "" };
    println!(
        "{name:<22}{solid:>9}{store:>12.0}{rate:>7.2}{length:>12.0}{load:>12.0}{zero:>13.0}{check:>12.0}{each:>9.1}{word}"
    );
}
