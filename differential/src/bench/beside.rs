//! A fill beside a stand of 65,536 sections against a set: it must not walk the rows where box and stand meet.

use super::stand::at;
use super::{head, measure, print};
use crate::ffi::{Cell, Extent, Volume};
use crate::ours::{self, Storage};
use std::hint::black_box;

/// Cells along x and y: 256 sections each.
const EDGE: i32 = 4_096;
const SECTIONS: usize = 65_536;

struct Wide {
    volume: Volume,
    storage: Storage,
    /// That of the cell that is set.
    finish: u16,
}

impl Wide {
    /// As opening leaves it; its zeros are mapped where they are first read.
    fn open() -> Self {
        let size = Extent {
            x: EDGE,
            y: EDGE,
            z: 1,
        };
        Self {
            volume: ours::header(Cell::default(), size).volume,
            storage: Storage::zeros(SECTIONS),
            finish: 0,
        }
    }

    /// A box that misses the stand along x alone.
    fn fill(&mut self) {
        let (from, to) = black_box((at(EDGE, 0, 0), at(9_999, EDGE - 1, 0)));
        let done = ours::fill(self.volume, &mut self.storage, from, to, 1);
        assert_eq!(done.code, 0);
        self.volume = done.volume;
    }

    /// A set that changes a cell.
    fn set_another(&mut self) {
        self.finish = 3 - self.finish.max(1);
        self.set(1);
    }

    /// A set to the finish that the cell has.
    fn set_same(&mut self) {
        self.set(0);
    }

    fn set(&mut self, changed: u64) {
        let cell = black_box(at(0, 0, 0));
        let done = ours::set(self.volume, &mut self.storage, cell, self.finish);
        assert_eq!((done.code, done.changed), (0, changed));
        self.volume = done.volume;
    }
}

pub fn table() {
    println!(
        "\nStand of 4,096 by 4,096 by 1 cells, a fill beside it along x against a set, ours alone"
    );
    head("set, ns");
    let mut wide = Wide::open();
    let sets: [(_, fn(&mut Wide)); 2] = [
        ("against another finish", Wide::set_another),
        ("against the same finish", Wide::set_same),
    ];
    for (name, set) in sets {
        print(measure(name, 1.0, 1, &mut wide, Wide::fill, set));
    }
}
