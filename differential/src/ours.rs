//! Our side: the C interface over slices, and a stand with storage of its own.

use crate::ffi::{self, Cell, Edited, Extent, Number, Opened, Volume};
use crate::rng::Rng;

/// The five lists that a stand is lent.
#[derive(Clone, PartialEq, Debug, Default)]
pub struct Storage {
    pub cells: Vec<u16>,
    pub hashes: Vec<u64>,
    pub versions: Vec<u32>,
    pub log: Vec<u32>,
    pub last: Vec<u64>,
}

impl Storage {
    /// Lists for a number of sections, holding anything but zeros.
    pub fn dirty(sections: usize) -> Self {
        Self {
            cells: vec![0xd1d1; sections * 4_096],
            hashes: vec![0xd2d2; sections],
            versions: vec![0xd3d3; sections],
            log: vec![0xd4d4; sections],
            last: vec![0xd5d5; sections],
        }
    }

    pub fn zeros(sections: usize) -> Self {
        Self {
            cells: vec![0; sections * 4_096],
            hashes: vec![0; sections],
            versions: vec![0; sections],
            log: vec![0; sections],
            last: vec![0; sections],
        }
    }

    /// Lists that hold anything.
    pub fn any(sections: usize, rng: &mut Rng) -> Self {
        let mut s = Self::zeros(sections);
        s.cells.iter_mut().for_each(|n| *n = rng.next() as u16);
        s.hashes.iter_mut().for_each(|n| *n = rng.next());
        s.versions.iter_mut().for_each(|n| *n = rng.next() as u32);
        s.log.iter_mut().for_each(|n| *n = rng.next() as u32);
        s.last.iter_mut().for_each(|n| *n = rng.next());
        s
    }
}

/// Sections that a size asks for, each axis rounded up; more than the limit counts as one.
pub fn sections_of(size: Extent) -> usize {
    let on = |n: i32| (i128::from(n.max(1)) + 15) / 16;
    let count = on(size.x) * on(size.y) * on(size.z);
    if count <= 65_536 { count as usize } else { 1 }
}

/// The header that opening would give.
pub fn header(origin: Cell, size: Extent) -> Opened {
    unsafe { ffi::stand_header(origin, size) }
}

pub fn open(origin: Cell, size: Extent, s: &mut Storage) -> Opened {
    unsafe {
        ffi::stand_open(
            origin,
            size,
            s.cells.as_mut_ptr(),
            s.cells.len(),
            s.hashes.as_mut_ptr(),
            s.hashes.len(),
            s.versions.as_mut_ptr(),
            s.versions.len(),
            s.log.as_mut_ptr(),
            s.log.len(),
            s.last.as_mut_ptr(),
            s.last.len(),
        )
    }
}

pub fn set(v: Volume, s: &mut Storage, cell: Cell, finish: u16) -> Edited {
    unsafe {
        ffi::stand_set(
            v,
            s.cells.as_mut_ptr(),
            s.cells.len(),
            s.hashes.as_mut_ptr(),
            s.hashes.len(),
            s.versions.as_mut_ptr(),
            s.versions.len(),
            s.log.as_mut_ptr(),
            s.log.len(),
            s.last.as_mut_ptr(),
            s.last.len(),
            cell,
            finish,
        )
    }
}

/// A set that alters the header where it is.
pub fn set_lent(v: &mut Volume, s: &mut Storage, cell: Cell, finish: u16) -> Number {
    unsafe {
        ffi::stand_set_lent(
            v,
            s.cells.as_mut_ptr(),
            s.cells.len(),
            s.hashes.as_mut_ptr(),
            s.hashes.len(),
            s.versions.as_mut_ptr(),
            s.versions.len(),
            s.log.as_mut_ptr(),
            s.log.len(),
            s.last.as_mut_ptr(),
            s.last.len(),
            cell,
            finish,
        )
    }
}

pub fn fill(v: Volume, s: &mut Storage, from: Cell, to: Cell, finish: u16) -> Edited {
    unsafe {
        ffi::stand_fill(
            v,
            s.cells.as_mut_ptr(),
            s.cells.len(),
            s.hashes.as_mut_ptr(),
            s.hashes.len(),
            s.versions.as_mut_ptr(),
            s.versions.len(),
            s.log.as_mut_ptr(),
            s.log.len(),
            s.last.as_mut_ptr(),
            s.last.len(),
            from,
            to,
            finish,
        )
    }
}

pub fn origin(v: Volume) -> ffi::Place {
    unsafe { ffi::stand_origin(v) }
}

pub fn max(v: Volume) -> ffi::Place {
    unsafe { ffi::stand_max(v) }
}

pub fn clamp(v: Volume, cell: Cell) -> ffi::Place {
    unsafe { ffi::stand_clamp(v, cell) }
}

pub fn chunk_origin(v: Volume, chunk: usize) -> ffi::Place {
    unsafe { ffi::stand_chunk_origin(v, chunk) }
}

pub fn chunks(v: Volume) -> ffi::Span {
    unsafe { ffi::stand_chunks(v) }
}

pub fn size(v: Volume) -> ffi::Span {
    unsafe { ffi::stand_size(v) }
}

pub fn chunk_count(v: Volume) -> Number {
    unsafe { ffi::stand_chunk_count(v) }
}

pub fn solid_count(v: Volume) -> Number {
    unsafe { ffi::stand_solid_count(v) }
}

pub fn generation(v: Volume) -> Number {
    unsafe { ffi::stand_generation(v) }
}

pub fn contains(v: Volume, cell: Cell) -> Number {
    unsafe { ffi::stand_contains(v, cell) }
}

pub fn is_solid(v: Volume, cells: &[u16], cell: Cell) -> Number {
    unsafe { ffi::stand_is_solid(v, cells.as_ptr(), cells.len(), cell) }
}

pub fn get(v: Volume, cells: &[u16], cell: Cell) -> Number {
    unsafe { ffi::stand_get(v, cells.as_ptr(), cells.len(), cell) }
}

pub fn chunk_of(v: Volume, cell: Cell) -> Number {
    unsafe { ffi::stand_chunk_of(v, cell) }
}

pub fn chunk_hash(v: Volume, hashes: &[u64], chunk: usize) -> Number {
    unsafe { ffi::stand_chunk_hash(v, hashes.as_ptr(), hashes.len(), chunk) }
}

pub fn chunk_version(v: Volume, versions: &[u32], chunk: usize) -> Number {
    unsafe { ffi::stand_chunk_version(v, versions.as_ptr(), versions.len(), chunk) }
}

pub fn digest(v: Volume, hashes: &[u64]) -> Number {
    unsafe { ffi::stand_digest(v, hashes.as_ptr(), hashes.len()) }
}

pub fn merged(extent: Extent) -> Number {
    unsafe { ffi::stand_merged(extent) }
}

pub fn changed_since(v: Volume, log: &[u32], last: &[u64], mark: u64) -> Number {
    unsafe { ffi::stand_changed_since(v, log.as_ptr(), log.len(), last.as_ptr(), last.len(), mark) }
}

pub fn changed_step(v: Volume, log: &[u32], last: &[u64], next: u64) -> ffi::ChunkStep {
    unsafe { ffi::stand_changed_step(v, log.as_ptr(), log.len(), last.as_ptr(), last.len(), next) }
}

pub fn solid_step(v: Volume, cells: &[u16], next: usize) -> ffi::SolidStep {
    unsafe { ffi::stand_solid_step(v, cells.as_ptr(), cells.len(), next) }
}

pub fn faces(v: Volume, cells: &[u16], rule: u32, mask: &mut [u16], list: &mut [i32]) -> Number {
    unsafe {
        ffi::stand_faces(
            v,
            cells.as_ptr(),
            cells.len(),
            rule,
            mask.as_mut_ptr(),
            mask.len(),
            list.as_mut_ptr(),
            list.len(),
        )
    }
}

pub fn chunk_faces(
    v: Volume,
    cells: &[u16],
    chunk: usize,
    rule: u32,
    mask: &mut [u16],
    list: &mut [i32],
) -> Number {
    unsafe {
        ffi::stand_chunk_faces(
            v,
            cells.as_ptr(),
            cells.len(),
            chunk,
            rule,
            mask.as_mut_ptr(),
            mask.len(),
            list.as_mut_ptr(),
            list.len(),
        )
    }
}

/// The mask slots that a section wants.
pub fn chunk_slots(v: Volume, chunk: usize) -> Number {
    unsafe { ffi::stand_chunk_slots(v, chunk) }
}

pub fn chunk_slice(
    v: Volume,
    cells: &[u16],
    chunk: usize,
    side: u32,
    slice: usize,
    rule: u32,
    mask: &mut [u16],
) -> ffi::Sliced {
    unsafe {
        ffi::stand_chunk_slice(
            v,
            cells.as_ptr(),
            cells.len(),
            chunk,
            side,
            slice,
            rule,
            mask.as_mut_ptr(),
            mask.len(),
        )
    }
}

pub fn claim(slice: ffi::Slice, mask: &mut [u16], from: usize) -> ffi::Claimed {
    unsafe { ffi::stand_claim(slice, mask.as_mut_ptr(), mask.len(), from) }
}

/// What a call on the sheet is given: rates by finish, cut, outside rule.
#[derive(Clone, Copy)]
pub struct Terms<'a> {
    pub rates: &'a [u32],
    pub cut: u32,
    pub rule: u32,
}

pub fn open_sheet(
    v: Volume,
    mark: u64,
    cells: &[u16],
    terms: Terms,
    mask: &mut [u16],
    sheet: &mut [u64],
) -> ffi::Marked {
    unsafe {
        ffi::stand_open_sheet(
            v,
            mark,
            cells.as_ptr(),
            cells.len(),
            terms.rates.as_ptr(),
            terms.rates.len(),
            terms.cut,
            terms.rule,
            mask.as_mut_ptr(),
            mask.len(),
            sheet.as_mut_ptr(),
            sheet.len(),
        )
    }
}

/// The lists that a refresh reads.
#[derive(Clone, Copy)]
pub struct Read<'a> {
    pub cells: &'a [u16],
    pub log: &'a [u32],
    pub last: &'a [u64],
}

pub fn refresh(
    v: Volume,
    mark: u64,
    read: Read,
    terms: Terms,
    mask: &mut [u16],
    sheet: &mut [u64],
) -> ffi::Marked {
    unsafe {
        ffi::stand_refresh(
            v,
            mark,
            read.cells.as_ptr(),
            read.cells.len(),
            read.log.as_ptr(),
            read.log.len(),
            read.last.as_ptr(),
            read.last.len(),
            terms.rates.as_ptr(),
            terms.rates.len(),
            terms.cut,
            terms.rule,
            mask.as_mut_ptr(),
            mask.len(),
            sheet.as_mut_ptr(),
            sheet.len(),
        )
    }
}

pub fn totals(v: Volume, sheet: &[u64]) -> ffi::Sums {
    unsafe { ffi::stand_totals(v, sheet.as_ptr(), sheet.len()) }
}

/// Writes the form of a stand's cells; the form's length.
pub fn store(v: Volume, cells: &[u16], out: &mut [u8]) -> Number {
    unsafe { ffi::stand_store(v, cells.as_ptr(), cells.len(), out.as_mut_ptr(), out.len()) }
}

pub fn stored_length(v: Volume, cells: &[u16]) -> Number {
    unsafe { ffi::stand_stored_length(v, cells.as_ptr(), cells.len()) }
}

/// Opens the stand that a form holds.
pub fn load(form: &[u8], s: &mut Storage) -> Opened {
    unsafe {
        ffi::stand_load(
            form.as_ptr(),
            form.len(),
            s.cells.as_mut_ptr(),
            s.cells.len(),
            s.hashes.as_mut_ptr(),
            s.hashes.len(),
            s.versions.as_mut_ptr(),
            s.versions.len(),
            s.log.as_mut_ptr(),
            s.log.len(),
            s.last.as_mut_ptr(),
            s.last.len(),
        )
    }
}

/// The header that loading would give.
pub fn stored_header(form: &[u8]) -> Opened {
    unsafe { ffi::stand_stored_header(form.as_ptr(), form.len()) }
}
