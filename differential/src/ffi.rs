//! The C interface as include/stand.h declares it: a slice is a pointer and a count.

#[repr(C)]
#[derive(Clone, Copy, PartialEq, Eq, Hash, Debug, Default)]
pub struct Cell {
    pub x: i32,
    pub y: i32,
    pub z: i32,
}

#[repr(C)]
#[derive(Clone, Copy, PartialEq, Eq, Hash, Debug, Default)]
pub struct Extent {
    pub x: i32,
    pub y: i32,
    pub z: i32,
}

#[repr(C)]
#[derive(Clone, Copy, PartialEq, Eq, Debug, Default)]
pub struct Volume {
    pub origin: Cell,
    pub chunks: Extent,
    pub size: Extent,
    pub generation: u64,
    pub solid: u64,
}

#[repr(C)]
#[derive(Clone, Copy, PartialEq, Eq, Debug)]
pub struct Opened {
    pub code: u32,
    pub volume: Volume,
}

#[repr(C)]
#[derive(Clone, Copy, PartialEq, Eq, Debug)]
pub struct Edited {
    pub code: u32,
    pub changed: u64,
    pub volume: Volume,
}

#[repr(C)]
#[derive(Clone, Copy, PartialEq, Eq, Debug)]
pub struct Number {
    pub code: u32,
    pub value: u64,
}

#[repr(C)]
#[derive(Clone, Copy, PartialEq, Eq, Debug)]
pub struct Place {
    pub code: u32,
    pub cell: Cell,
}

#[repr(C)]
#[derive(Clone, Copy, PartialEq, Eq, Debug)]
pub struct Span {
    pub code: u32,
    pub extent: Extent,
}

#[repr(C)]
#[derive(Clone, Copy, PartialEq, Eq, Debug)]
pub struct ChunkStep {
    pub code: u32,
    pub given: u32,
    pub chunk: u64,
    pub next: u64,
}

#[repr(C)]
#[derive(Clone, Copy, PartialEq, Eq, Debug)]
pub struct SolidStep {
    pub code: u32,
    pub given: u32,
    pub cell: Cell,
    pub finish: u32,
    pub next: u64,
}

#[repr(C)]
#[derive(Clone, Copy, PartialEq, Eq, Debug, Default)]
pub struct Slice {
    pub cell: Cell,
    pub side: u32,
    pub width: u64,
    pub height: u64,
}

#[repr(C)]
#[derive(Clone, Copy, PartialEq, Eq, Debug)]
pub struct Sliced {
    pub code: u32,
    pub slice: Slice,
}

#[repr(C)]
#[derive(Clone, Copy, PartialEq, Eq, Debug)]
pub struct Claimed {
    pub code: u32,
    pub given: u32,
    pub cell: Cell,
    pub side: u32,
    pub finish: u32,
    pub extent: Extent,
    pub next: u64,
}

#[repr(C)]
#[derive(Clone, Copy, PartialEq, Eq, Debug)]
pub struct Marked {
    pub code: u32,
    pub mark: u64,
}

#[repr(C)]
#[derive(Clone, Copy, PartialEq, Eq, Debug)]
pub struct Sums {
    pub code: u32,
    pub panels: u64,
    pub faces: u64,
    pub cents: u64,
}

unsafe extern "C" {
    pub fn stand_header(origin: Cell, size: Extent) -> Opened;
    pub fn stand_open(
        origin: Cell,
        size: Extent,
        cells: *mut u16,
        cells_len: usize,
        hashes: *mut u64,
        hashes_len: usize,
        versions: *mut u32,
        versions_len: usize,
        log: *mut u32,
        log_len: usize,
        last: *mut u64,
        last_len: usize,
    ) -> Opened;
    pub fn stand_set(
        volume: Volume,
        cells: *mut u16,
        cells_len: usize,
        hashes: *mut u64,
        hashes_len: usize,
        versions: *mut u32,
        versions_len: usize,
        log: *mut u32,
        log_len: usize,
        last: *mut u64,
        last_len: usize,
        cell: Cell,
        finish: u16,
    ) -> Edited;
    pub fn stand_set_lent(
        volume: *mut Volume,
        cells: *mut u16,
        cells_len: usize,
        hashes: *mut u64,
        hashes_len: usize,
        versions: *mut u32,
        versions_len: usize,
        log: *mut u32,
        log_len: usize,
        last: *mut u64,
        last_len: usize,
        cell: Cell,
        finish: u16,
    ) -> Number;
    pub fn stand_fill(
        volume: Volume,
        cells: *mut u16,
        cells_len: usize,
        hashes: *mut u64,
        hashes_len: usize,
        versions: *mut u32,
        versions_len: usize,
        log: *mut u32,
        log_len: usize,
        last: *mut u64,
        last_len: usize,
        from: Cell,
        to: Cell,
        finish: u16,
    ) -> Edited;
    pub fn stand_origin(volume: Volume) -> Place;
    pub fn stand_max(volume: Volume) -> Place;
    pub fn stand_clamp(volume: Volume, cell: Cell) -> Place;
    pub fn stand_chunk_origin(volume: Volume, chunk: usize) -> Place;
    pub fn stand_chunks(volume: Volume) -> Span;
    pub fn stand_size(volume: Volume) -> Span;
    pub fn stand_chunk_count(volume: Volume) -> Number;
    pub fn stand_solid_count(volume: Volume) -> Number;
    pub fn stand_generation(volume: Volume) -> Number;
    pub fn stand_contains(volume: Volume, cell: Cell) -> Number;
    pub fn stand_is_solid(
        volume: Volume,
        cells: *const u16,
        cells_len: usize,
        cell: Cell,
    ) -> Number;
    pub fn stand_get(volume: Volume, cells: *const u16, cells_len: usize, cell: Cell) -> Number;
    pub fn stand_chunk_of(volume: Volume, cell: Cell) -> Number;
    pub fn stand_chunk_hash(
        volume: Volume,
        hashes: *const u64,
        hashes_len: usize,
        chunk: usize,
    ) -> Number;
    pub fn stand_chunk_version(
        volume: Volume,
        versions: *const u32,
        versions_len: usize,
        chunk: usize,
    ) -> Number;
    pub fn stand_digest(volume: Volume, hashes: *const u64, hashes_len: usize) -> Number;
    pub fn stand_merged(extent: Extent) -> Number;
    pub fn stand_changed_since(
        volume: Volume,
        log: *const u32,
        log_len: usize,
        last: *const u64,
        last_len: usize,
        mark: u64,
    ) -> Number;
    pub fn stand_changed_step(
        volume: Volume,
        log: *const u32,
        log_len: usize,
        last: *const u64,
        last_len: usize,
        next: u64,
    ) -> ChunkStep;
    pub fn stand_solid_step(
        volume: Volume,
        cells: *const u16,
        cells_len: usize,
        next: usize,
    ) -> SolidStep;
    pub fn stand_faces(
        volume: Volume,
        cells: *const u16,
        cells_len: usize,
        rule: u32,
        mask: *mut u16,
        mask_len: usize,
        list: *mut i32,
        list_len: usize,
    ) -> Number;
    pub fn stand_chunk_faces(
        volume: Volume,
        cells: *const u16,
        cells_len: usize,
        chunk: usize,
        rule: u32,
        mask: *mut u16,
        mask_len: usize,
        list: *mut i32,
        list_len: usize,
    ) -> Number;
    pub fn stand_chunk_slots(volume: Volume, chunk: usize) -> Number;
    pub fn stand_chunk_slice(
        volume: Volume,
        cells: *const u16,
        cells_len: usize,
        chunk: usize,
        side: u32,
        slice: usize,
        rule: u32,
        mask: *mut u16,
        mask_len: usize,
    ) -> Sliced;
    pub fn stand_claim(slice: Slice, mask: *mut u16, mask_len: usize, from: usize) -> Claimed;
    pub fn stand_open_sheet(
        volume: Volume,
        mark: u64,
        cells: *const u16,
        cells_len: usize,
        rates: *const u32,
        rates_len: usize,
        cut: u32,
        rule: u32,
        mask: *mut u16,
        mask_len: usize,
        sheet: *mut u64,
        sheet_len: usize,
    ) -> Marked;
    pub fn stand_refresh(
        volume: Volume,
        mark: u64,
        cells: *const u16,
        cells_len: usize,
        log: *const u32,
        log_len: usize,
        last: *const u64,
        last_len: usize,
        rates: *const u32,
        rates_len: usize,
        cut: u32,
        rule: u32,
        mask: *mut u16,
        mask_len: usize,
        sheet: *mut u64,
        sheet_len: usize,
    ) -> Marked;
    pub fn stand_totals(volume: Volume, sheet: *const u64, sheet_len: usize) -> Sums;
    pub fn stand_store(
        volume: Volume,
        cells: *const u16,
        cells_len: usize,
        out: *mut u8,
        out_len: usize,
    ) -> Number;
    pub fn stand_stored_length(volume: Volume, cells: *const u16, cells_len: usize) -> Number;
    pub fn stand_load(
        form: *const u8,
        form_len: usize,
        cells: *mut u16,
        cells_len: usize,
        hashes: *mut u64,
        hashes_len: usize,
        versions: *mut u32,
        versions_len: usize,
        log: *mut u32,
        log_len: usize,
        last: *mut u64,
        last_len: usize,
    ) -> Opened;
    pub fn stand_stored_header(form: *const u8, form_len: usize) -> Opened;
}
