//! Measuring a section against meshing it with a list of no numbers.

use super::measure;
use super::refresh::terms;
use super::stand::{at, checkered, ground, layers, scattered, wall};
use crate::ffi::{Cell, Extent, Volume};
use crate::ours::{self, Storage};
use std::hint::black_box;

const EDGE: i32 = 16;
/// Each coordinate of the middle section's lowest cell: the ground is taken there.
const MIDDLE: i32 = 16;
/// A panel list that is too short.
const SHORT: u32 = 11;

/// A stand of one section, and its sheet.
struct Section {
    volume: Volume,
    cells: Vec<u16>,
    mask: Vec<u16>,
    row: Vec<u64>,
}

impl Section {
    fn laid(finish: fn(i32, i32, i32) -> u16) -> Self {
        let size = Extent {
            x: EDGE,
            y: EDGE,
            z: EDGE,
        };
        let mut storage = Storage::dirty(1);
        let mut volume = ours::open(Cell::default(), size, &mut storage).volume;
        for n in 0..EDGE * EDGE * EDGE {
            let (x, y, z) = (n % EDGE, n / EDGE % EDGE, n / EDGE / EDGE);
            ours::set_lent(&mut volume, &mut storage, at(x, y, z), finish(x, y, z));
        }
        Self {
            volume,
            cells: storage.cells,
            mask: vec![0; 256],
            row: vec![0; 3],
        }
    }

    /// The sheet opened: both passes over the section.
    fn open_sheet(&mut self) {
        let v = black_box(self.volume);
        let (mask, row) = (&mut self.mask, &mut self.row);
        let got = ours::open_sheet(v, 0, &self.cells, terms(), mask, row);
        assert_eq!(got.code, 0);
    }

    /// The panels counted and none written: refused where there are any.
    fn chunk_faces(&mut self) {
        let v = black_box(self.volume);
        let got = ours::chunk_faces(v, &self.cells, 0, terms().rule, &mut self.mask, &mut []);
        assert_eq!(got.code, if got.value > 0 { SHORT } else { 0 });
    }
}

pub fn table() {
    println!(
        "\nOne section measured (open_sheet) against meshed with a list of no numbers (chunk_faces), ours alone"
    );
    println!(
        "{:<28}{:>9}{:>16}{:>17}{:>9}",
        "section", "panels", "open_sheet, ns", "chunk_faces, ns", "ratio"
    );
    row("empty", |_, _, _| 0);
    row("solid", |_, _, _| 1);
    row("ground", |x, y, z| {
        ground(at(x + MIDDLE, y + MIDDLE, z + MIDDLE))
    });
    row("wall", wall);
    row("checkered", checkered);
    row("random", scattered);
    row("layers", layers);
}

fn row(name: &'static str, finish: fn(i32, i32, i32) -> u16) {
    let mut section = Section::laid(finish);
    // No goal is set.
    let took = measure(
        name,
        f64::INFINITY,
        1,
        &mut section,
        Section::open_sheet,
        Section::chunk_faces,
    );
    let (measured, meshed, panels) = (took.ours, took.other, section.row[0]);
    let ratio = measured / meshed;
    println!("{name:<28}{panels:>9}{measured:>16.0}{meshed:>17.0}{ratio:>9.2}");
}
