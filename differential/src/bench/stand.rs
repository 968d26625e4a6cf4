//! Stands of the benchmark, the same on both sides, and their patterns.

use crate::ffi::{Cell, Extent, Volume};
use crate::ours::{self, Storage};
use crate::rng::Rng;
use crate::theirs::Theirs;

/// Cells along each edge of the stand: 3 by 3 by 3 sections.
pub const EDGE: i32 = 48;
/// The section in the middle, in which the patterns of chunk_faces lie.
pub const MIDDLE: usize = 13;

pub struct Both {
    pub volume: Volume,
    pub storage: Storage,
    pub rust: Theirs,
    pub mask: Vec<u16>,
    pub list: Vec<i32>,
}

pub fn at(x: i32, y: i32, z: i32) -> Cell {
    Cell { x, y, z }
}

impl Both {
    pub fn open() -> Self {
        let size = Extent {
            x: EDGE,
            y: EDGE,
            z: EDGE,
        };
        let mut storage = Storage::dirty(27);
        let opened = ours::open(Cell::default(), size, &mut storage);
        assert_eq!(opened.code, 0);
        Self {
            volume: opened.volume,
            storage,
            rust: Theirs::open(Cell::default(), size).expect("opens"),
            mask: vec![0; (EDGE * EDGE) as usize],
            list: vec![0; (EDGE * EDGE * EDGE * 24) as usize],
        }
    }

    pub fn laid(finish: impl Fn(Cell) -> u16) -> Self {
        let mut both = Self::open();
        for n in 0..EDGE * EDGE * EDGE {
            let c = at(n % EDGE, n / EDGE % EDGE, n / EDGE / EDGE);
            both.set(c, finish(c));
        }
        both
    }

    pub fn set(&mut self, c: Cell, finish: u16) {
        self.set_ours(c, finish);
        self.rust.set(c, finish);
    }

    pub fn set_ours(&mut self, c: Cell, finish: u16) -> u64 {
        let done = ours::set(self.volume, &mut self.storage, c, finish);
        self.volume = done.volume;
        done.changed
    }

    pub fn set_lent(&mut self, c: Cell, finish: u16) -> u64 {
        ours::set_lent(&mut self.volume, &mut self.storage, c, finish).value
    }

    pub fn fill_ours(&mut self, from: Cell, to: Cell, finish: u16) -> u64 {
        let done = ours::fill(self.volume, &mut self.storage, from, to, finish);
        self.volume = done.volume;
        done.changed
    }
}

/// A pattern in the middle section alone.
pub fn in_middle(pattern: impl Fn(i32, i32, i32) -> u16) -> impl Fn(Cell) -> u16 {
    move |c| {
        let own = |v: i32| (16..32).contains(&v);
        if own(c.x) && own(c.y) && own(c.z) {
            pattern(c.x - 16, c.y - 16, c.z - 16)
        } else {
            0
        }
    }
}

pub fn scattered(x: i32, y: i32, z: i32) -> u16 {
    let mut rng = Rng::of(3, 0, ((z * 64 + y) * 64 + x) as u64);
    if rng.chance(50) {
        1 + rng.below(3) as u16
    } else {
        0
    }
}

pub fn checkered(x: i32, y: i32, z: i32) -> u16 {
    u16::from((x + y + z) % 2 == 0)
}

pub fn wall(x: i32, _: i32, _: i32) -> u16 {
    u16::from(x == 8)
}

/// Full layers with gaps between them, two finishes alternating: 256 panels in a slice, the most.
pub fn layers(x: i32, y: i32, z: i32) -> u16 {
    let finish = 1 + (x + y + z) % 2;
    if y % 2 == 0 { finish as u16 } else { 0 }
}

/// Hills of three finishes over the whole stand.
pub fn ground(c: Cell) -> u16 {
    let height = 20 + (c.x / 5 + c.z / 7) % 6;
    if c.y > height {
        0
    } else if c.y == height {
        3
    } else if c.y > height - 3 {
        2
    } else {
        1
    }
}
