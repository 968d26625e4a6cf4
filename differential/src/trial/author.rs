//! Writes calls on stands of at most 4 sections, most of them accepted.

use super::call::Call;
use super::program::open_code;
use crate::calls::{Maker, Mix, cell_of, extent_of};
use crate::ffi::{Cell, Extent};
use crate::ours::sections_of;
use crate::rng::Rng;
use crate::sheet::LIMIT;
use crate::tiers::offered;

const MIX: Mix = Mix {
    sizes: offered,
    reach: 6,
};

pub struct Author {
    pub rng: Rng,
    pub calls: Vec<Call>,
    maker: Maker,
    /// The finishes of most edits, all with a rate where the author is not rough.
    palette: Vec<u16>,
    /// Rates and cuts above the limit and finishes off the list come too.
    rough: bool,
}

impl Author {
    pub fn new(mut rng: Rng, rough: bool) -> Self {
        let count = rng.between(1, 4);
        let mut finish = || match rng.below(4) {
            0 => rng.pick(&[1, 62, 63]),
            1 => rng.between(1, 63) as u16,
            _ => rng.between(1, 3) as u16,
        };
        let palette = (0..count).map(|_| finish()).collect();
        Self {
            rng,
            calls: Vec::new(),
            maker: Maker::new(MIX),
            palette,
            rough,
        }
    }

    pub fn bytes(&self) -> Vec<u8> {
        self.calls.iter().flat_map(Call::bytes).collect()
    }

    pub fn push(&mut self, call: Call) {
        self.calls.push(call);
    }

    /// The card and an opening, in either order.
    pub fn begin(&mut self) {
        if self.rng.chance(50) {
            self.card();
            self.open();
        } else {
            self.open();
            self.card();
        }
    }

    fn card(&mut self) {
        if self.rng.chance(70) {
            let cut = self.one(6);
            self.push(cut);
        }
        for finish in self.palette.clone() {
            if !(self.rough && self.rng.chance(15)) {
                let rate = self.amount();
                self.push(Call::Rate(finish, rate));
            }
        }
    }

    /// A rate or a cut.
    fn amount(&mut self) -> u32 {
        let r = &mut self.rng;
        if self.rough && r.chance(10) {
            return r.pick(&[LIMIT + 1, LIMIT + 2, u32::MAX - 1, u32::MAX]);
        }
        match r.below(10) {
            0 => 0,
            1 => r.pick(&[1, LIMIT - 1, LIMIT, LIMIT]),
            _ => r.below(500) as u32,
        }
    }

    /// A change of the card, refused by 12 for a finish that has no rate.
    pub fn recard(&mut self) {
        let call = match self.rng.below(10) {
            0..3 => self.one(6),
            3 if self.rough => Call::Rate(self.off_list(), self.amount()),
            _ => self.one(5),
        };
        self.push(call);
    }

    fn off_list(&mut self) -> u16 {
        let any = self.rng.next() as u16;
        self.rng.pick(&[0, 64, 65, 255, 256, 65_535, any])
    }

    /// A finish without a rate: off the list, or unset.
    fn unpriced(&mut self) -> u16 {
        let any = self.rng.between(64, 65_535) as u16;
        let unset = (1..64).filter(|f| !self.palette.contains(f));
        let unset: Vec<u16> = unset.collect();
        let unset = self.rng.pick(&unset);
        self.rng.pick(&[64, any, unset, unset])
    }

    /// Another card, then a refresh refused by 12 for one cell, and one after the cell is mended.
    pub fn mend(&mut self) {
        self.recard();
        let cell = self.maker.cell(&mut self.rng);
        self.set_twice(cell);
    }

    /// A cell without a rate among others, seen by no side where the stand is wide enough.
    pub fn bury(&mut self) {
        let c = self.maker.cell(&mut self.rng);
        let by = |n: i32| cell_of([c.x, c.y, c.z].map(|m| m.saturating_add(n)));
        let around = self.rng.pick(&self.palette);
        self.push(Call::Fill(by(-1), by(1), around));
        self.set_twice(c);
    }

    /// A refresh after a finish without a rate, and one after another finish.
    fn set_twice(&mut self, cell: Cell) {
        for finish in [self.unpriced(), self.finish()] {
            self.push(Call::Set(cell, finish));
            self.push(Call::Refresh);
        }
    }

    pub fn open(&mut self) {
        let open = self.one(1);
        self.push(open);
    }

    /// An opening refused by 1, 2 or 4, often by more than one of them.
    pub fn refused_open(&mut self) {
        let r = &mut self.rng;
        if r.chance(50) {
            let (origin, size) = self.maker.refused_opening(r);
            return self.push(Call::Open(origin, size));
        }
        let mut size = [65, 1, 1];
        match r.below(4) {
            0 => size = [17, 33, 1],
            1 => size[0] = r.pick(&[1_048_576, 1_048_577, 1_048_560, i32::MAX]),
            2 => size = [r.between(17, 70) as i32, r.between(33, 70) as i32, 17],
            _ => size[1] = r.between(0, 16) as i32,
        }
        size.rotate_left(r.below(3) as usize);
        let end = cell_of([i32::MAX; 3]);
        let origin = r.pick(&[self.maker.origin, Cell::default(), end]);
        self.push(Call::Open(origin, extent_of(size)));
    }

    /// The stand opened with another size, most often larger and from the same origin.
    pub fn enlarge(&mut self) {
        let r = &mut self.rng;
        let (o, n) = (self.maker.origin, self.maker.size);
        let (mut origin, mut size) = ([o.x, o.y, o.z], [n.x, n.y, n.z]);
        let axis = r.below(3) as usize;
        let old = size[axis];
        size[axis] = if r.chance(40) {
            r.pick(&[17, 33, 48, 64])
        } else {
            old + r.pick(&[1, 1, 15, 16, 0, -1])
        };
        if r.chance(20) {
            origin[axis] = origin[axis].saturating_sub(r.pick(&[1, 15, 16]));
        }
        let (origin, size) = (cell_of(origin), extent_of(size));
        if open_code(origin, size) == 0 {
            self.maker.origin = origin;
            self.maker.size = at_least_one(size);
        }
        self.push(Call::Open(origin, size));
    }

    fn finish(&mut self) -> u16 {
        if self.rough && self.rng.chance(2) {
            return self.off_list();
        }
        if self.rng.chance(5) {
            return 0;
        }
        self.rng.pick(&self.palette)
    }

    /// A cell anywhere, or one that an earlier set named, most often emptied.
    fn set(&mut self) -> Call {
        let at = self.rng.below(self.calls.len() as u64) as usize;
        match self.calls.get(at).copied() {
            Some(Call::Set(cell, _)) if self.rng.chance(40) => Call::Set(cell, 0),
            Some(Call::Set(cell, _)) if self.rng.chance(20) => Call::Set(cell, self.finish()),
            _ => {
                let cell = self.maker.cell(&mut self.rng);
                Call::Set(cell, self.finish())
            }
        }
    }

    /// A call of a kind.
    pub fn one(&mut self, kind: u8) -> Call {
        match kind {
            1 => {
                let (origin, size) = self.maker.opening(&mut self.rng);
                Call::Open(origin, size)
            }
            2 => self.set(),
            3 => {
                let (from, to) = self.maker.corners(&mut self.rng);
                Call::Fill(from, to, self.finish())
            }
            4 => Call::Refresh,
            5 => Call::Rate(self.rng.pick(&self.palette), self.amount()),
            _ => Call::Cut(self.amount()),
        }
    }

    /// A set, a fill, or the edit before once more, which then changes nothing.
    pub fn edit(&mut self) {
        let last = self.calls.last().copied();
        let call = match (self.rng.below(20), last) {
            (0, Some(edit @ (Call::Set(..) | Call::Fill(..)))) => edit,
            (1..5, _) => self.one(3),
            _ => self.one(2),
        };
        self.push(call);
    }

    /// Edits before a refresh: none, one, a few, and around as many as there are sections.
    pub fn round(&mut self) {
        let n = sections_of(self.maker.size) as i64;
        let edits = match self.rng.below(20) {
            0 => 0,
            1..9 => 1,
            9..15 => self.rng.between(2, 4),
            15 => self.rng.between(5, 9),
            _ => self.rng.between(n, n + 2),
        };
        for _ in 0..edits {
            self.edit();
        }
        self.push(Call::Refresh);
    }
}

fn at_least_one(e: Extent) -> Extent {
    extent_of([e.x, e.y, e.z].map(|n| n.max(1)))
}
