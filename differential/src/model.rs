//! Refusals and edits by documents 01 and 02, worked out in exact numbers apart from both sides.

use crate::ffi::{Cell, Extent, Opened, Volume};
use crate::ours::Storage;
use std::ops::Range;

const LAST: i128 = i32::MAX as i128;

fn wide(e: Extent) -> [i128; 3] {
    [e.x, e.y, e.z].map(i128::from)
}

fn spread(c: Cell) -> [i128; 3] {
    [c.x, c.y, c.z].map(i128::from)
}

fn sections_for(size: [i128; 3]) -> i128 {
    size.iter().map(|n| (n + 15) / 16).product()
}

fn first(rules: &[(bool, u32)]) -> u32 {
    rules.iter().find(|r| r.0).map_or(0, |r| r.1)
}

/// Opening with storage of the right length: 1, then 2.
pub fn open_code(origin: Cell, size: Extent) -> u32 {
    let size = wide(size).map(|n| n.max(1));
    let past = (0..3).any(|a| spread(origin)[a] + size[a] - 1 > LAST);
    first(&[(sections_for(size) > 65_536, 1), (past, 2)])
}

/// A header that 3 lets pass.
pub fn formed(v: Volume) -> bool {
    let (size, chunks) = (wide(v.size), wide(v.chunks));
    let origin = spread(v.origin);
    (0..3).all(|a| size[a] >= 1 && chunks[a] == (size[a] + 15) / 16)
        && (0..3).all(|a| origin[a] + size[a] - 1 <= LAST)
        && sections_for(size) <= 65_536
}

/// The sections of a header that 3 lets pass.
pub fn sections(v: Volume) -> usize {
    sections_for(wide(v.size)) as usize
}

pub fn header_code(v: Volume) -> u32 {
    first(&[(!formed(v), 3)])
}

/// A header and one list of `per` entries for each section: 3, then 4.
pub fn list_code(v: Volume, per: usize, len: usize) -> u32 {
    if !formed(v) {
        return 3;
    }
    first(&[(len != sections(v) * per, 4)])
}

pub fn storage_code(v: Volume, s: &Storage) -> u32 {
    if !formed(v) {
        return 3;
    }
    let n = sections(v);
    let lengths = [s.hashes.len(), s.versions.len(), s.log.len(), s.last.len()];
    let fits = s.cells.len() == n * 4_096 && lengths.iter().all(|l| *l == n);
    first(&[(!fits, 4)])
}

/// The distances of a cell from the origin, where it is inside.
fn distances(v: Volume, c: Cell) -> Option<[i128; 3]> {
    let (at, origin, size) = (spread(c), spread(v.origin), wide(v.size));
    let d = [0, 1, 2].map(|a| at[a] - origin[a]);
    (0..3).all(|a| (0..size[a]).contains(&d[a])).then_some(d)
}

pub fn inside(v: Volume, c: Cell) -> bool {
    distances(v, c).is_some()
}

/// The storage index of a cell, where it is inside.
pub fn slot(v: Volume, c: Cell) -> Option<usize> {
    let d = distances(v, c)?;
    let k = wide(v.chunks);
    let section = (d[2] / 16 * k[1] + d[1] / 16) * k[0] + d[0] / 16;
    let within = (d[2] % 16 * 16 + d[1] % 16) * 16 + d[0] % 16;
    Some((section * 4_096 + within) as usize)
}

pub fn set_code(v: Volume, s: &Storage, c: Cell, finish: u16) -> u32 {
    let code = storage_code(v, s);
    if code != 0 {
        return code;
    }
    match slot(v, c) {
        None => 5,
        Some(i) => first(&[(s.cells[i] != finish && v.generation == u64::MAX, 6)]),
    }
}

/// What box and stand have in common: along each axis the distances from the origin, none where they do not meet.
fn common(v: Volume, from: Cell, to: Cell) -> [Range<i128>; 3] {
    let (a, b) = (spread(from), spread(to));
    let (origin, size) = (spread(v.origin), wide(v.size));
    [0, 1, 2].map(|i| {
        let (low, high) = (a[i].min(b[i]), a[i].max(b[i]));
        (low - origin[i]).max(0)..(high - origin[i] + 1).min(size[i])
    })
}

/// How the box of a fill lies to the stand.
#[derive(Clone, Copy)]
pub enum Lies {
    Inside,
    /// A corner is outside, and at least one cell in common.
    Across,
    /// No cell in common: box and stand do not meet on so many axes.
    Beside(usize),
}

impl Lies {
    /// The box misses the stand.
    pub fn misses(self) -> bool {
        matches!(self, Self::Beside(_))
    }
}

pub fn lies(v: Volume, from: Cell, to: Cell) -> Lies {
    let apart = common(v, from, to).iter().filter(|r| r.is_empty()).count();
    match apart {
        0 if inside(v, from) && inside(v, to) => Lies::Inside,
        0 => Lies::Across,
        axes => Lies::Beside(axes),
    }
}

/// 3, 4, then 6 for the cells that box and stand have in common, changed or not.
pub fn fill_code(v: Volume, s: &Storage, from: Cell, to: Cell) -> u32 {
    let code = storage_code(v, s);
    if code != 0 {
        return code;
    }
    let counts = common(v, from, to).map(|r| (r.end - r.start).max(0));
    let cells: i128 = counts.iter().product();
    first(&[(cells > i128::from(u64::MAX - v.generation), 6)])
}

pub fn section_code(v: Volume, chunk: usize) -> u32 {
    if !formed(v) {
        return 3;
    }
    first(&[(chunk >= sections(v), 7)])
}

pub fn feed_code(v: Volume, log: usize, last: usize, mark: u64) -> u32 {
    if !formed(v) {
        return 3;
    }
    let n = sections(v);
    let lag = u128::from(v.generation.saturating_sub(mark));
    first(&[
        (log != n || last != n, 4),
        (mark > v.generation, 8),
        (lag > n as u128, 9),
    ])
}

/// The cells of a part along each axis: a section's, cut short by the size, or the stand's.
pub fn part_cells(v: Volume, part: Option<usize>) -> [usize; 3] {
    let size = wide(v.size);
    let Some(chunk) = part else {
        return size.map(|n| n as usize);
    };
    let k = wide(v.chunks);
    let chunk = chunk as i128;
    let place = [chunk % k[0], chunk / k[0] % k[1], chunk / k[0] / k[1]];
    [0, 1, 2].map(|a| (size[a] - place[a] * 16).min(16) as usize)
}

/// The mask slots that 10 wants.
pub fn want(v: Volume, part: Option<usize>) -> usize {
    let n = part_cells(v, part);
    (n[0] * n[1]).max(n[0] * n[2]).max(n[1] * n[2])
}

/// A meshing call up to 10: 3, 4, 7, 10.
pub fn mesh_code(v: Volume, cells: usize, part: Option<usize>, mask: usize) -> u32 {
    let code = list_code(v, 4_096, cells);
    if code != 0 {
        return code;
    }
    if part.is_some_and(|chunk| chunk >= sections(v)) {
        return 7;
    }
    first(&[(mask < want(v, part), 10)])
}

/// The faces of a panel, or None for 13.
pub fn merged(e: Extent) -> Option<u64> {
    let e = wide(e);
    let product: i128 = e.iter().product();
    (e.iter().all(|n| *n > 0) && product <= LAST).then_some(product as u64)
}

/// What the header call answers: the header that opening gives, or its refusal by 1 or 2.
pub fn header(origin: Cell, size: Extent) -> Opened {
    let code = open_code(origin, size);
    let volume = match code {
        0 => opened(origin, size),
        _ => Volume::default(),
    };
    Opened { code, volume }
}

/// The header that opening gives where it is not refused.
pub fn opened(origin: Cell, size: Extent) -> Volume {
    let [x, y, z] = wide(size).map(|n| n.max(1) as i32);
    let on = |n: i32| ((i128::from(n) + 15) / 16) as i32;
    Volume {
        origin,
        chunks: Extent {
            x: on(x),
            y: on(y),
            z: on(z),
        },
        size: Extent { x, y, z },
        generation: 0,
        solid: 0,
    }
}

/// A cell's part of its section's hash: SplitMix64's output for the state within·65,536 + finish.
pub fn term(within: usize, finish: u16) -> u64 {
    let state = (within as u64 * 65_536 + u64::from(finish)).wrapping_add(0x9e37_79b9_7f4a_7c15);
    let a = (state ^ (state >> 30)).wrapping_mul(0xbf58_476d_1ce4_e5b9);
    let b = (a ^ (a >> 27)).wrapping_mul(0x94d0_49bb_1331_11eb);
    b ^ (b >> 31)
}

/// The digest: of origin, sections, sizes and hashes each is XORed in, then a product modulo 2^64 taken.
pub fn digest(v: Volume, hashes: &[u64]) -> u64 {
    let (o, k, n) = (v.origin, v.chunks, v.size);
    let shape = [o.x, o.y, o.z, k.x, k.y, k.z, n.x, n.y, n.z].map(|n| u64::from(n as u32));
    let words = shape.iter().chain(hashes);
    words.fold(0xcbf2_9ce4_8422_2325, |digest, word| {
        (digest ^ word).wrapping_mul(0x100_0000_01b3)
    })
}

/// A set that is not refused, on storage of any contents; whether it changed the cell.
pub fn set(v: &mut Volume, s: &mut Storage, c: Cell, finish: u16) -> bool {
    let Some(i) = slot(*v, c) else {
        return false;
    };
    let old = std::mem::replace(&mut s.cells[i], finish);
    if old == finish {
        return false;
    }
    let section = i / 4_096;
    for f in [old, finish].into_iter().filter(|f| *f != 0) {
        s.hashes[section] ^= term(i % 4_096, f);
    }
    s.versions[section] = s.versions[section].wrapping_add(1);
    let ring = (v.generation % s.log.len() as u64) as usize;
    s.log[ring] = section as u32;
    v.generation += 1;
    s.last[section] = v.generation;
    match (old, finish) {
        (0, _) => v.solid = v.solid.wrapping_add(1),
        (_, 0) => v.solid = v.solid.wrapping_sub(1),
        _ => {}
    }
    true
}

/// The cells of a fill, in its order: those both in the box and in the stand.
pub fn box_cells(v: Volume, from: Cell, to: Cell) -> Vec<Cell> {
    let [xs, ys, zs] = common(v, from, to);
    let o = spread(v.origin);
    let mut cells = Vec::new();
    for z in zs {
        for y in ys.clone() {
            for x in xs.clone() {
                cells.push(Cell {
                    x: (o[0] + x) as i32,
                    y: (o[1] + y) as i32,
                    z: (o[2] + z) as i32,
                });
            }
        }
    }
    cells
}

/// The place of a storage index, its coordinates exact.
fn place(v: Volume, i: usize) -> [i128; 3] {
    let (o, k) = (spread(v.origin), wide(v.chunks));
    let (section, within) = ((i / 4_096) as i128, (i % 4_096) as i128);
    let corner = [section % k[0], section / k[0] % k[1], section / k[0] / k[1]];
    let step = [within % 16, within / 16 % 16, within / 256];
    [0, 1, 2].map(|a| o[a] + corner[a] * 16 + step[a])
}

/// The walk over occupied cells of storage with any contents, coordinates saturating.
pub fn solids(v: Volume, cells: &[u16]) -> Vec<(Cell, u32)> {
    let occupied = cells.iter().enumerate().filter(|(_, f)| **f != 0);
    occupied
        .map(|(i, f)| {
            let [x, y, z] = place(v, i).map(|n| n.min(LAST) as i32);
            (Cell { x, y, z }, u32::from(*f))
        })
        .collect()
}

/// A storage index whose cell lies in the stand, not beyond its size.
pub fn holds(v: Volume, i: usize) -> bool {
    let (at, o, size) = (place(v, i), spread(v.origin), wide(v.size));
    (0..3).all(|a| at[a] - o[a] < size[a])
}

/// The cells with every slot beyond the size emptied.
pub fn cut(v: Volume, cells: &[u16]) -> Vec<u16> {
    let slots = cells.iter().enumerate();
    slots
        .map(|(i, f)| if holds(v, i) { *f } else { 0 })
        .collect()
}

/// The sections changed since a mark, on log and last changes of any contents.
pub fn changed(v: Volume, log: &[u32], last: &[u64], mark: u64) -> Vec<u64> {
    let given = |g: u64| {
        let section = log[(g % log.len() as u64) as usize];
        let own = last.get(section as usize) == Some(&(g + 1));
        own.then_some(u64::from(section))
    };
    (mark..v.generation).filter_map(given).collect()
}
