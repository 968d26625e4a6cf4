//! The form of a stand as document 02, 2.2 gives it: records of one kind byte and a fixed body, little-endian.

use crate::calls::cell_of;
use crate::ffi::{Cell, Extent, Volume};
use crate::model;
use crate::ours::Storage;

/// Bytes of the first record, of a cell's and of the last.
pub const HEAD: usize = 25;
const RECORD: usize = 7;
const TAIL: usize = 9;

/// What a form holds of a stand.
#[derive(Clone, PartialEq, Debug)]
pub struct Form {
    pub origin: Cell,
    pub size: Extent,
    pub records: Vec<Record>,
}

/// An occupied cell: its section, its index within, its finish.
#[derive(Clone, Copy, PartialEq, Eq, PartialOrd, Ord, Debug)]
pub struct Record {
    pub section: u16,
    pub within: u16,
    pub finish: u16,
}

impl Record {
    pub fn at(slot: usize, finish: u16) -> Self {
        Self {
            section: (slot / 4_096) as u16,
            within: (slot % 4_096) as u16,
            finish,
        }
    }

    pub fn slot(self) -> usize {
        usize::from(self.section) * 4_096 + usize::from(self.within)
    }

    /// Kind 2.
    pub fn bytes(self) -> [u8; RECORD] {
        let [a, b, c] = [self.section, self.within, self.finish].map(u16::to_le_bytes);
        [2, a[0], a[1], b[0], b[1], c[0], c[1]]
    }
}

/// Kind 1.
pub fn head(origin: Cell, size: Extent) -> [u8; HEAD] {
    let mut bytes = [1; HEAD];
    let numbers = [origin.x, origin.y, origin.z, size.x, size.y, size.z];
    for (place, n) in bytes[1..].chunks_mut(4).zip(numbers) {
        place.copy_from_slice(&n.to_le_bytes());
    }
    bytes
}

/// Kind 0.
pub fn tail(digest: u64) -> [u8; TAIL] {
    let mut bytes = [0; TAIL];
    bytes[1..].copy_from_slice(&digest.to_le_bytes());
    bytes
}

impl Form {
    /// What storing keeps: the occupied cells inside the stand, ascending by section and index.
    pub fn of(v: Volume, cells: &[u16]) -> Self {
        let [low, high] = [i32::MIN, i32::MAX].map(|n| cell_of([n; 3]));
        let inside = model::box_cells(v, low, high).into_iter();
        let slots = inside.filter_map(|cell| model::slot(v, cell));
        let mut records: Vec<Record> = slots
            .filter(|slot| cells[*slot] != 0)
            .map(|slot| Record::at(slot, cells[slot]))
            .collect();
        records.sort_unstable();
        Self {
            origin: v.origin,
            size: v.size,
            records,
        }
    }

    pub fn length(&self) -> usize {
        HEAD + self.records.len() * RECORD + TAIL
    }

    pub fn bytes(&self) -> Vec<u8> {
        self.sealed(self.digest())
    }

    /// The bytes with any digest.
    pub fn sealed(&self, digest: u64) -> Vec<u8> {
        let mut bytes = head(self.origin, self.size).to_vec();
        for record in &self.records {
            bytes.extend(record.bytes());
        }
        bytes.extend(tail(digest));
        bytes
    }

    /// The header of a fresh stand filled so, with generation 0.
    pub fn header(&self) -> Volume {
        Volume {
            solid: self.records.len() as u64,
            ..model::opened(self.origin, self.size)
        }
    }

    /// The hashes of a fresh stand filled so. Records of sections that it has not are left out.
    pub fn hashes(&self) -> Vec<u64> {
        let mut hashes = vec![0; model::sections(self.header())];
        for r in self.records.iter().filter(|r| r.finish != 0) {
            if let Some(hash) = hashes.get_mut(usize::from(r.section)) {
                *hash ^= model::term(usize::from(r.within), r.finish);
            }
        }
        hashes
    }

    /// The digest of a fresh stand filled so.
    pub fn digest(&self) -> u64 {
        model::digest(self.header(), &self.hashes())
    }

    /// The lists that a load leaves: cells and hashes of the records, all else 0.
    pub fn storage(&self) -> Storage {
        let hashes = self.hashes();
        let mut storage = Storage::zeros(hashes.len());
        storage.hashes = hashes;
        for record in &self.records {
            storage.cells[record.slot()] = record.finish;
        }
        storage
    }
}
