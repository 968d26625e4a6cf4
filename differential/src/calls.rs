//! Calls, and lists of them made from a seed.

use crate::ffi::{Cell, Extent};
use crate::rng::Rng;
use crate::sheet::Ask;
use std::fmt;

#[derive(Clone, Copy, PartialEq, Debug)]
pub enum Call {
    Open(Cell, Extent),
    Set(Cell, u16),
    /// A set with the header lent.
    SetLent(Cell, u16),
    Fill(Cell, Cell, u16),
    /// get, contains, is_solid, chunk_of, clamp.
    Look(Cell),
    /// chunk_origin, chunk_hash, chunk_version, chunk_faces.
    Section(usize),
    /// changed_since and its walk.
    Since(u64),
    Merged(Extent),
    /// A call on the price sheet.
    Sheet(Ask),
}

impl fmt::Display for Call {
    fn fmt(&self, f: &mut fmt::Formatter) -> fmt::Result {
        let cell = |c: &Cell| format!("({}, {}, {})", c.x, c.y, c.z);
        let extent = |e: &Extent| format!("({}, {}, {})", e.x, e.y, e.z);
        match self {
            Self::Open(o, s) => write!(f, "open at {} with size {}", cell(o), extent(s)),
            Self::Set(c, v) => write!(f, "set {} to {v}", cell(c)),
            Self::SetLent(c, v) => write!(f, "set {} to {v}, header lent", cell(c)),
            Self::Fill(a, b, v) => write!(f, "fill {} to {} with {v}", cell(a), cell(b)),
            Self::Look(c) => write!(f, "look at {}", cell(c)),
            Self::Section(n) => write!(f, "section {n}"),
            Self::Since(mark) => write!(f, "changed since {mark}"),
            Self::Merged(e) => write!(f, "merged {}", extent(e)),
            Self::Sheet(ask) => write!(f, "{ask}"),
        }
    }
}

/// How a tier's stands are sized.
pub type Sizes = fn(&mut Rng) -> Extent;

/// What a list is made of.
#[derive(Clone, Copy)]
pub struct Mix {
    pub sizes: Sizes,
    /// Most cells of a fill along an axis, a few whole fills aside.
    pub reach: i64,
}

/// A list of `count` calls that begins with an opening.
pub fn list(mix: Mix, count: usize, rng: &mut Rng) -> Vec<Call> {
    let mut maker = Maker::new(mix);
    let mut calls = vec![maker.open(rng)];
    while calls.len() < count {
        let before = calls[calls.len() - 1];
        let call = maker.next(before, rng);
        calls.push(call);
    }
    calls
}

/// Makes calls for the stand that the last opening gave.
#[derive(Clone, Copy)]
pub struct Maker {
    mix: Mix,
    pub origin: Cell,
    pub size: Extent,
    edits: u64,
}

impl Maker {
    pub fn new(mix: Mix) -> Self {
        Self {
            mix,
            origin: Cell::default(),
            size: Extent { x: 1, y: 1, z: 1 },
            edits: 0,
        }
    }

    fn next(&mut self, before: Call, rng: &mut Rng) -> Call {
        self.edits += 1;
        match rng.below(100) {
            0..36 => Call::Set(self.cell(rng), finish(rng)),
            36..52 => Call::SetLent(self.cell(rng), finish(rng)),
            52..72 => self.fill(rng),
            72..80 => match before {
                // An equal set or fill, or one more of its kind.
                Call::Set(..) | Call::SetLent(..) | Call::Fill(..) => before,
                _ => Call::Set(self.cell(rng), finish(rng)),
            },
            80..89 => Call::Look(self.cell(rng)),
            89..93 => Call::Section(rng.below(10) as usize),
            93..96 => Call::Since(self.mark(rng)),
            96..98 => Call::Merged(extent(rng)),
            98 => self.refused_open(rng),
            _ => self.open(rng),
        }
    }

    pub fn open(&mut self, rng: &mut Rng) -> Call {
        let (origin, size) = self.opening(rng);
        Call::Open(origin, size)
    }

    pub fn opening(&mut self, rng: &mut Rng) -> (Cell, Extent) {
        self.size = (self.mix.sizes)(rng);
        let size = self.size;
        self.origin = Cell {
            x: origin(size.x, rng),
            y: origin(size.y, rng),
            z: origin(size.z, rng),
        };
        // A size below 1 counts as 1.
        let mut low = |n: i32| if n == 1 && rng.chance(20) { -7 } else { n };
        let asked = Extent {
            x: low(size.x),
            y: low(size.y),
            z: low(size.z),
        };
        (self.origin, asked)
    }

    pub fn refused_open(&self, rng: &mut Rng) -> Call {
        let (origin, size) = self.refused_opening(rng);
        Call::Open(origin, size)
    }

    pub fn refused_opening(&self, rng: &mut Rng) -> (Cell, Extent) {
        let mut size = [self.size.x, self.size.y, self.size.z];
        let mut origin = [self.origin.x, self.origin.y, self.origin.z];
        let axis = rng.below(3) as usize;
        if rng.chance(50) {
            size[axis] = rng.pick(&[1_048_577, i32::MAX, i32::MAX - 14, i32::MAX - 15]);
        } else {
            size[axis] = size[axis].max(2);
            origin[axis] = i32::MAX - size[axis] + 2;
        }
        (cell_of(origin), extent_of(size))
    }

    pub fn cell(&self, rng: &mut Rng) -> Cell {
        let out = rng.chance(10);
        let axis = rng.below(3);
        let on = |rng: &mut Rng, a: u64, o: i32, n: i32| {
            if out && a == axis {
                outside(o, n, rng)
            } else {
                within(o, n, rng)
            }
        };
        Cell {
            x: on(rng, 0, self.origin.x, self.size.x),
            y: on(rng, 1, self.origin.y, self.size.y),
            z: on(rng, 2, self.origin.z, self.size.z),
        }
    }

    pub fn fill(&self, rng: &mut Rng) -> Call {
        let (from, to) = self.corners(rng);
        Call::Fill(from, to, finish(rng))
    }

    pub fn corners(&self, rng: &mut Rng) -> (Cell, Cell) {
        let (o, n) = (self.origin, self.size);
        let kind = rng.below(20);
        let reach = self.mix.reach;
        let mut on = |o: i32, n: i32| match kind {
            0 => (i32::MIN, i32::MAX),
            1 => (outside(o, n, rng), outside(o, n, rng)),
            2 => (outside(o, n, rng), within(o, n, rng)),
            _ => {
                let a = i64::from(within(o, n, rng));
                let b = a + rng.between(-reach, reach);
                (a as i32, i32_of(b))
            }
        };
        let x = on(o.x, n.x);
        let y = on(o.y, n.y);
        let z = on(o.z, n.z);
        (cell_of([x.0, y.0, z.0]), cell_of([x.1, y.1, z.1]))
    }

    fn mark(&self, rng: &mut Rng) -> u64 {
        match rng.below(4) {
            0 => rng.next(),
            1 => u64::MAX,
            _ => rng.below(self.edits * 2 + 2),
        }
    }
}

pub const fn cell_of(c: [i32; 3]) -> Cell {
    let [x, y, z] = c;
    Cell { x, y, z }
}

pub const fn extent_of(e: [i32; 3]) -> Extent {
    let [x, y, z] = e;
    Extent { x, y, z }
}

fn i32_of(n: i64) -> i32 {
    n.clamp(i64::from(i32::MIN), i64::from(i32::MAX)) as i32
}

/// An origin along one axis for `n` cells, often at an end of i32.
fn origin(n: i32, rng: &mut Rng) -> i32 {
    match rng.below(10) {
        0..3 => 0,
        3 => i32::MIN,
        4 => i32::MAX - (n - 1),
        5 => rng.pick(&[-1, -n, -16, -17, 5, i32::MIN + 1]),
        6 => i32::MAX - n,
        _ => rng.between(i64::from(i32::MIN), i64::from(i32::MAX - n + 1)) as i32,
    }
}

fn within(o: i32, n: i32, rng: &mut Rng) -> i32 {
    let d = if rng.chance(60) {
        rng.below(n as u64) as i32
    } else {
        rng.pick(&[0, 1, n - 1, n - 2, 15, 16, 17]).clamp(0, n - 1)
    };
    i32_of(i64::from(o) + i64::from(d))
}

/// A coordinate beside the stand, or one inside where i32 has no such.
fn outside(o: i32, n: i32, rng: &mut Rng) -> i32 {
    let (o, n) = (i64::from(o), i64::from(n));
    let far = rng.between(i64::from(i32::MIN), i64::from(i32::MAX));
    let ends = [i64::from(i32::MIN), i64::from(i32::MAX)];
    i32_of(rng.pick(&[o - 1, o + n, o - 16, o + n + 16, ends[0], ends[1], far]))
}

pub fn finish(rng: &mut Rng) -> u16 {
    match rng.below(20) {
        0 => 65_535,
        1 => rng.next() as u16,
        2..7 => 0,
        _ => 1 + rng.below(3) as u16,
    }
}

fn extent(rng: &mut Rng) -> Extent {
    let on = |rng: &mut Rng| match rng.below(5) {
        0 => rng.next() as i32,
        1 => rng.pick(&[0, -1, 1, 65_536, 32_768, 32_767, 46_341, i32::MAX, i32::MIN]),
        _ => rng.between(1, 40) as i32,
    };
    extent_of([on(rng), on(rng), on(rng)])
}
