//! Fills beside the stand and at the edge of 6, each with the number that documents 01 and 02 give it.

use super::Hurt;
use super::forge::{beside, inside};
use crate::calls::cell_of;
use crate::ffi::Cell;
use crate::model;
use crate::pair::Same;
use crate::rng::Rng;

/// Two corners and a finish.
pub type Fill = (Cell, Cell, u16);

/// A name, the number, and what damages the stand and says what to fill.
type Edge = (&'static str, u32, fn(&mut Hurt, &mut Rng) -> Fill);

pub const EDGES: [Edge; 6] = [
    ("beside the stand, no generation left", 0, Hurt::beside_last),
    ("beside the stand, header forged", 3, Hurt::beside_forged),
    ("beside the stand, cells one short", 4, Hurt::beside_short),
    ("own finish, no generation left", 6, Hurt::own_last),
    ("all of i32, a generation for each cell", 0, Hurt::all_fit),
    ("all of i32, one generation fewer", 6, Hurt::all_but_one),
];

impl Hurt {
    pub fn edge(&mut self, number: usize, rng: &mut Rng) -> Same {
        self.tally.edges[number] += 1;
        let (name, code, make) = EDGES[number];
        let fill = make(self, rng);
        self.fill_box(name, fill, code)
    }

    fn beside_last(&mut self, rng: &mut Rng) -> Fill {
        self.v.generation = u64::MAX;
        self.beside(rng)
    }

    /// One section more than the size has.
    fn beside_forged(&mut self, rng: &mut Rng) -> Fill {
        let fill = self.beside(rng);
        self.v.chunks.x += 1;
        fill
    }

    fn beside_short(&mut self, rng: &mut Rng) -> Fill {
        self.s.cells.pop();
        self.beside(rng)
    }

    fn beside(&self, rng: &mut Rng) -> Fill {
        let (from, to) = beside(self.v, rng);
        (from, to, 1 + rng.below(3) as u16)
    }

    /// One cell, and the finish that it has.
    fn own_last(&mut self, rng: &mut Rng) -> Fill {
        self.v.generation = u64::MAX;
        let cell = inside(self.v, rng);
        let slot = model::slot(self.v, cell).expect("a cell inside has a slot");
        (cell, cell, self.s.cells[slot])
    }

    fn all_fit(&mut self, rng: &mut Rng) -> Fill {
        let n = self.v.size;
        let cells: u64 = [n.x, n.y, n.z].map(|n| n as u64).iter().product();
        self.v.generation = u64::MAX - cells;
        let [from, to] = [i32::MIN, i32::MAX].map(|n| cell_of([n; 3]));
        (from, to, rng.below(4) as u16)
    }

    fn all_but_one(&mut self, rng: &mut Rng) -> Fill {
        let fill = self.all_fit(rng);
        self.v.generation += 1;
        fill
    }
}
