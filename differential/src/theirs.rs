//! The Rust's side, its answers in the types of the C interface.

use crate::ffi::{self, Cell, Extent};
use reference::{Beyond, Face, Quad, Volume, Voxel};

pub fn cell(c: Cell) -> reference::Cell {
    reference::Cell::new(c.x, c.y, c.z)
}

fn ours(c: reference::Cell) -> Cell {
    Cell {
        x: c.x,
        y: c.y,
        z: c.z,
    }
}

fn extent(e: (i32, i32, i32)) -> Extent {
    Extent {
        x: e.0,
        y: e.1,
        z: e.2,
    }
}

pub fn beyond(rule: u32) -> Beyond {
    if rule == 0 {
        Beyond::Solid
    } else {
        Beyond::Empty
    }
}

pub fn side(face: Face) -> u32 {
    match face {
        Face::East => 0,
        Face::West => 1,
        Face::Top => 2,
        Face::Bottom => 3,
        Face::North => 4,
        Face::South => 5,
    }
}

/// A panel as document 01 writes it.
pub fn panel(q: &Quad) -> [i32; 8] {
    let (c, e) = (q.cell, q.extent);
    [
        c.x,
        c.y,
        c.z,
        side(q.face) as i32,
        i32::from(q.voxel.0),
        e.0,
        e.1,
        e.2,
    ]
}

/// The lists of a stand, in the order of our storage.
pub struct Stored<'a> {
    pub cells: &'a [Voxel],
    pub hashes: &'a [u64],
    pub versions: &'a [u32],
    pub log: &'a [u32],
    pub last: &'a [u64],
}

pub struct Theirs(pub Volume);

impl Theirs {
    pub fn open(origin: Cell, size: Extent) -> Option<Self> {
        Volume::new(cell(origin), (size.x, size.y, size.z)).map(Self)
    }

    /// The header of the stand, in the model's terms.
    pub fn header(&self) -> ffi::Volume {
        ffi::Volume {
            origin: self.origin(),
            chunks: self.chunks(),
            size: self.size(),
            generation: self.0.generation(),
            solid: self.0.solid_count() as u64,
        }
    }

    pub fn stored(&self) -> Stored<'_> {
        let (cells, hashes, versions, log, last) = self.0.stored();
        Stored {
            cells,
            hashes,
            versions,
            log,
            last,
        }
    }

    pub fn set(&mut self, c: Cell, finish: u16) -> bool {
        self.0.set(cell(c), Voxel(finish))
    }

    pub fn fill(&mut self, from: Cell, to: Cell, finish: u16) -> u64 {
        self.0.fill(cell(from), cell(to), Voxel(finish)) as u64
    }

    pub fn origin(&self) -> Cell {
        ours(self.0.origin())
    }

    pub fn max(&self) -> Cell {
        ours(self.0.max())
    }

    pub fn clamp(&self, c: Cell) -> Cell {
        ours(self.0.clamp(cell(c)))
    }

    pub fn chunks(&self) -> Extent {
        extent(self.0.chunks())
    }

    pub fn size(&self) -> Extent {
        extent(self.0.size())
    }

    pub fn get(&self, c: Cell) -> Option<u64> {
        self.0.get(cell(c)).map(|v| u64::from(v.0))
    }

    pub fn chunk_of(&self, c: Cell) -> Option<u64> {
        self.0.chunk_of(cell(c)).map(|n| n as u64)
    }

    pub fn chunk_origin(&self, chunk: usize) -> Option<Cell> {
        self.0.chunk_origin(chunk).map(ours)
    }

    pub fn chunk_version(&self, chunk: usize) -> Option<u64> {
        self.0.chunk_version(chunk).map(u64::from)
    }

    pub fn solids(&self) -> impl Iterator<Item = (Cell, u32)> + '_ {
        self.0.solids().map(|(c, v)| (ours(c), u32::from(v.0)))
    }

    /// The panels of a section, or of the whole stand.
    pub fn panels(&self, part: Option<usize>, rule: u32) -> Vec<Quad> {
        match part {
            None => reference::faces(&self.0, beyond(rule)),
            Some(chunk) => {
                let mut quads = Vec::new();
                reference::chunk_faces(&self.0, chunk, beyond(rule), &mut quads);
                quads
            }
        }
    }
}

pub fn merged(e: Extent) -> i32 {
    let quad = Quad {
        cell: reference::Cell::new(0, 0, 0),
        face: Face::East,
        voxel: Voxel(1),
        extent: (e.x, e.y, e.z),
    };
    quad.merged()
}
