//! Refreshes after one edit, on a small stand and on a large one.

use super::stand::at;
use crate::ffi::{Cell, Extent, Volume};
use crate::ours::{self, Read, Storage, Terms};
use std::hint::black_box;
use std::time::Instant;

const TIMES: usize = 1_000;
/// Sections along each edge of the two stands.
const EDGES: [i32; 2] = [2, 16];
/// Cells of the corner section.
const MIDDLE: Cell = Cell { x: 8, y: 8, z: 8 };
const EDGE: Cell = Cell { x: 15, y: 8, z: 8 };
const RATES: [u32; 4] = [0, 100, 200, 300];

/// A stand and its sheet.
struct Priced {
    volume: Volume,
    storage: Storage,
    mark: u64,
    rows: Vec<u64>,
    mask: Vec<u16>,
}

pub fn terms() -> Terms<'static> {
    Terms {
        rates: &RATES,
        cut: 50,
        rule: 1,
    }
}

impl Priced {
    /// A stand of `edge` sections along each axis, its lowest `rows` rows filled.
    fn open(edge: i32, rows: i32) -> Self {
        let n = edge * 16;
        let sections = (edge * edge * edge) as usize;
        let mut storage = Storage::dirty(sections);
        let size = Extent { x: n, y: n, z: n };
        let mut volume = ours::open(at(0, 0, 0), size, &mut storage).volume;
        if rows > 0 {
            let high = at(n - 1, rows - 1, n - 1);
            volume = ours::fill(volume, &mut storage, at(0, 0, 0), high, 1).volume;
        }
        let mut sheet = vec![0; sections * 3];
        let mut mask = vec![0; 256];
        let opened = ours::open_sheet(volume, 0, &storage.cells, terms(), &mut mask, &mut sheet);
        assert_eq!(opened.code, 0);
        Self {
            volume,
            storage,
            mark: opened.mark,
            rows: sheet,
            mask,
        }
    }

    /// Sets a cell, then times a refresh: nanoseconds.
    fn turn(&mut self, cell: Cell, finish: u16) -> u128 {
        self.volume = ours::set(self.volume, &mut self.storage, cell, finish).volume;
        let read = Read {
            cells: &self.storage.cells,
            log: &self.storage.log,
            last: &self.storage.last,
        };
        let (mask, rows) = (&mut self.mask, &mut self.rows);
        let start = Instant::now();
        let got = ours::refresh(black_box(self.volume), self.mark, read, terms(), mask, rows);
        let taken = start.elapsed().as_nanos();
        assert_eq!(got.code, 0);
        self.mark = got.mark;
        taken
    }

    /// The median in microseconds.
    fn median(&mut self, cell: Cell) -> f64 {
        let finish = |i: usize| 2 + (i % 2) as u16;
        let mut times: Vec<u128> = (0..TIMES).map(|i| self.turn(cell, finish(i))).collect();
        times.sort_unstable();
        times[TIMES / 2] as f64 / 1_000.0
    }
}

pub fn table() {
    println!("\nRefresh after one set in the corner section, medians of {TIMES}, ours alone");
    println!(
        "{:<40}{:>16}{:>20}{:>9}",
        "edit", "8 sections, µs", "4,096 sections, µs", "ratio"
    );
    row("middle, stand empty but for it", 0, MIDDLE);
    row("edge, stand empty but for it", 0, EDGE);
    row("middle, over a ground of three rows", 3, MIDDLE);
    row("edge, over a ground of three rows", 3, EDGE);
}

fn row(name: &str, rows: i32, cell: Cell) {
    let [few, many] = EDGES.map(|edge| Priced::open(edge, rows).median(cell));
    let ratio = many / few;
    println!("{name:<40}{few:>16.1}{many:>20.1}{ratio:>9.3}");
}
