//! The calls by which a stand is reached, refused ones among them.

use crate::calls::{Call, Maker, finish};
use crate::ffi::Cell;
use crate::model;
use crate::rng::Rng;
use std::fmt;
use std::iter::repeat_with;

/// The lists, by number.
const LISTS: [&str; 5] = ["cells", "hashes", "versions", "log", "last changes"];

#[derive(Clone, Copy, PartialEq, Debug)]
pub enum Step {
    /// A set, a fill, or an opening that is refused.
    Call(Call),
    /// A set with one list an entry short: refused.
    Short(usize, Cell, u16),
    /// Stored, and its form loaded into lists that hold anything, made from this number.
    Reload(u64),
    /// Its form with one bit of the digest flipped, loaded into its own lists: refused.
    Spoilt(u32),
    /// Opened again in its own lists, all cells empty after it.
    Anew,
}

impl fmt::Display for Step {
    fn fmt(&self, f: &mut fmt::Formatter) -> fmt::Result {
        match self {
            Self::Call(call) => write!(f, "{call}"),
            Self::Short(list, cell, finish) => {
                let set = Call::Set(*cell, *finish);
                write!(f, "{set}, {} one short", LISTS[*list])
            }
            Self::Reload(_) => write!(f, "store and load"),
            Self::Spoilt(bit) => write!(f, "load with bit {bit} of the digest flipped"),
            Self::Anew => write!(f, "open anew"),
        }
    }
}

/// A set, the header by value or lent.
pub fn set(cell: Cell, finish: u16, rng: &mut Rng) -> Step {
    Step::Call(match rng.below(3) {
        0 => Call::SetLent(cell, finish),
        _ => Call::Set(cell, finish),
    })
}

/// A number of calls of any kind.
pub fn some(count: u64, maker: &Maker, rng: &mut Rng) -> Vec<Step> {
    (0..count).map(|_| any(maker, rng)).collect()
}

/// A call of any kind, most of them edits.
fn any(maker: &Maker, rng: &mut Rng) -> Step {
    match rng.below(100) {
        0..50 => set(maker.cell(rng), finish(rng), rng),
        50..80 => Step::Call(maker.fill(rng)),
        80..92 => refused(maker, rng),
        92..97 => Step::Reload(rng.next()),
        _ => Step::Anew,
    }
}

/// A call that is refused, by 5, 4, 1, 2 or 14.
pub fn refused(maker: &Maker, rng: &mut Rng) -> Step {
    match rng.below(4) {
        0 => set(outside(maker, rng), finish(rng), rng),
        1 => Step::Short(rng.below(5) as usize, maker.cell(rng), finish(rng)),
        2 => Step::Call(maker.refused_open(rng)),
        _ => Step::Spoilt(rng.below(64) as u32),
    }
}

/// A cell outside the stand.
fn outside(maker: &Maker, rng: &mut Rng) -> Cell {
    let v = model::opened(maker.origin, maker.size);
    let mut cells = repeat_with(|| maker.cell(rng));
    cells
        .find(|cell| !model::inside(v, *cell))
        .expect("no stand holds all cells")
}

/// A cell of the stand, often its first, its last, or one at a section's edge.
pub fn inside(maker: &Maker, rng: &mut Rng) -> Cell {
    let (o, n) = (maker.origin, maker.size);
    let v = model::opened(o, n);
    match rng.below(8) {
        0 => o,
        1 => Cell {
            x: o.x + (n.x - 1),
            y: o.y + (n.y - 1),
            z: o.z + (n.z - 1),
        },
        _ => {
            let mut cells = repeat_with(|| maker.cell(rng));
            cells
                .find(|cell| model::inside(v, *cell))
                .expect("a stand has a cell")
        }
    }
}

/// Any finish, often 0, 1 or 65,535.
pub fn any_finish(rng: &mut Rng) -> u16 {
    let (any, few) = (rng.next() as u16, finish(rng));
    rng.pick(&[0, 1, 65_535, any, few])
}

/// Any other finish, one in four times another in one bit.
pub fn another(finish: u16, rng: &mut Rng) -> u16 {
    if rng.chance(25) {
        return finish ^ (1 << rng.below(16));
    }
    match any_finish(rng) {
        other if other == finish => finish ^ 1,
        other => other,
    }
}
