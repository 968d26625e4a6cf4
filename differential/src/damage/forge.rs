//! Headers, lists and arguments as no careful caller gives them.

use crate::calls::cell_of;
use crate::ffi::{Cell, Volume};
use crate::ours::Storage;
use crate::rng::Rng;

pub fn some_chunk(rng: &mut Rng) -> usize {
    rng.pick(&[0, 0, 0, 1, 1, 2, 3, 4, 65_535, 65_536, usize::MAX, 1 << 32])
}

/// A number below `n`, or one in ten beyond.
pub fn some_number(n: u64, rng: &mut Rng) -> u32 {
    if rng.chance(10) {
        rng.pick(&[n as u32, n as u32 + 1, 256, 1 << 16, u32::MAX])
    } else {
        rng.below(n) as u32
    }
}

pub fn some_cell(v: Volume, rng: &mut Rng) -> Cell {
    let on = |o: i32, n: i32, rng: &mut Rng| match rng.below(8) {
        0 => rng.pick(&[i32::MIN, i32::MAX, 0]),
        1 => o.wrapping_sub(1),
        2 => o.wrapping_add(n),
        _ => o.wrapping_add(rng.below(n.max(1) as u64) as i32),
    };
    Cell {
        x: on(v.origin.x, v.size.x, rng),
        y: on(v.origin.y, v.size.y, rng),
        z: on(v.origin.z, v.size.z, rng),
    }
}

/// A cell of a stand that is not damaged.
pub fn inside(v: Volume, rng: &mut Rng) -> Cell {
    let (o, n) = (v.origin, v.size);
    let shape = [(o.x, n.x), (o.y, n.y), (o.z, n.z)];
    cell_of(shape.map(|(o, n)| o + rng.below(n as u64) as i32))
}

/// A box that misses a stand that is not damaged, on one axis alone: just below or above it, to the end of i32 or not.
pub fn beside(v: Volume, rng: &mut Rng) -> (Cell, Cell) {
    let (o, n) = (v.origin, v.size);
    let axis = rng.below(3) as usize;
    let (low, size) = [(o.x, n.x), (o.y, n.y), (o.z, n.z)][axis];
    let below = low.checked_sub(1).map(|near| [near, i32::MIN]);
    let above = low.checked_add(size).map(|near| [near, i32::MAX]);
    let sides: Vec<[i32; 2]> = below.into_iter().chain(above).collect();
    let side = rng.pick(&sides);
    let mut corner = || {
        let c = inside(v, rng);
        let mut c = [c.x, c.y, c.z];
        c[axis] = rng.pick(&side);
        cell_of(c)
    };
    (corner(), corner())
}

pub fn damage_header(v: &mut Volume, rng: &mut Rng) {
    for _ in 0..rng.between(1, 2) {
        let odd = |n: i32, rng: &mut Rng| {
            let near = [n.wrapping_add(1), n.wrapping_sub(1), n.wrapping_add(16)];
            let far = [0, -1, i32::MAX, i32::MIN, 65_536, 65_537];
            if rng.chance(50) {
                rng.pick(&near)
            } else {
                rng.pick(&far)
            }
        };
        match rng.below(13) {
            0 => v.origin.x = odd(v.origin.x, rng),
            1 => v.origin.y = odd(v.origin.y, rng),
            2 => v.origin.z = odd(v.origin.z, rng),
            3 => v.size.x = odd(v.size.x, rng),
            4 => v.size.y = odd(v.size.y, rng),
            5 => v.size.z = odd(v.size.z, rng),
            6 => v.chunks.x = odd(v.chunks.x, rng),
            7 => v.chunks.y = odd(v.chunks.y, rng),
            8 => v.chunks.z = odd(v.chunks.z, rng),
            9 => v.solid = rng.next(),
            _ => v.generation = u64::MAX - rng.pick(&[0, 0, 1, 2, 3, 8, 64]),
        }
    }
}

/// `now` is the generation that the lists go with.
pub fn damage_lists(s: &mut Storage, now: u64, rng: &mut Rng) {
    let odd = |n: usize, rng: &mut Rng| rng.pick(&[0, n - 1, n + 1, n * 2]);
    match rng.below(8) {
        0 => s.cells.resize(odd(s.cells.len(), rng), 1),
        1 => s.hashes.resize(odd(s.hashes.len(), rng), 1),
        2 => s.versions.resize(odd(s.versions.len(), rng), 1),
        3 => s.log.resize(odd(s.log.len(), rng), 1),
        4 => s.last.resize(odd(s.last.len(), rng), 1),
        // The right lengths and any contents, slots beyond the size among them.
        5 => {
            for _ in 0..rng.below(200) {
                let i = rng.below(s.cells.len() as u64) as usize;
                s.cells[i] = rng.below(4) as u16;
            }
        }
        _ => {
            s.log
                .iter_mut()
                .for_each(|n| *n = rng.next() as u32 >> rng.pick(&[0, 30]));
            let near = |rng: &mut Rng| now.wrapping_sub(rng.below(6));
            s.last.iter_mut().for_each(|n| {
                *n = if rng.chance(70) {
                    near(rng)
                } else {
                    rng.next()
                }
            });
            s.hashes.iter_mut().for_each(|n| *n = rng.next());
            s.versions.iter_mut().for_each(|n| *n = u32::MAX);
        }
    }
}
