//! What is compared of two stands of one origin and size.

use super::fault::Ours;
use super::stand::Stand;
use super::step::Step;
use super::tally::{Kind, Tally};
use crate::calls::{Call, cell_of};
use crate::ffi::{Cell, Number, Volume};
use crate::model;
use crate::ours;
use crate::pair::{Difference, MODEL, Same, agree};

/// The cell in which the second stand differs, its finish in the first and in the second.
#[derive(Clone, Copy, Debug)]
pub struct Change {
    pub cell: Cell,
    pub from: u16,
    pub to: u16,
}

/// The cells inside a stand, in the order of a fill.
pub fn cells_of(v: Volume) -> Vec<Cell> {
    let [low, high] = [i32::MIN, i32::MAX].map(|n| cell_of([n; 3]));
    model::box_cells(v, low, high)
}

/// The section of a cell inside, by the model.
pub fn section_of(v: Volume, cell: Cell) -> usize {
    model::slot(v, cell).map_or(0, |slot| slot / 4_096)
}

/// An answer that is not a refusal.
fn accepted(value: u64) -> Number {
    Number { code: 0, value }
}

/// Our side, the list that is being made (0 the first stand's, 1 the second's), and what was compared.
pub struct Check {
    pub ours: Ours,
    pub list: usize,
    pub tally: Tally,
}

impl Check {
    pub fn new(ours: Ours) -> Self {
        Self {
            ours,
            list: 0,
            tally: Tally::default(),
        }
    }

    /// A call's code is the one that it must have.
    pub fn answer(&mut self, what: &str, code: u32, due: u32) -> Same {
        self.tally.called(self.list, due);
        self.tally.compared(Kind::Answer);
        agree(what, code, MODEL, due)
    }

    /// A number is the one worked out.
    pub fn said(&mut self, what: &str, got: Number, due: u64) -> Same {
        self.tally.compared(Kind::Said);
        agree(what, got, "worked out", accepted(due))
    }

    /// Both answers are accepted, and the same.
    fn same(&mut self, kind: Kind, what: &str, [one, two]: [Number; 2]) -> Same {
        self.tally.compared(kind);
        if one.code == 0 && one == two {
            return Ok(());
        }
        Err(Difference(format!(
            "{what}: first {one:?}, second {two:?}, accepted and the same wanted"
        )))
    }

    /// Both answers are accepted, and different.
    fn differ(&mut self, kind: Kind, what: &str, [one, two]: [Number; 2]) -> Same {
        self.tally.compared(kind);
        if [one.code, two.code] == [0, 0] && one.value != two.value {
            return Ok(());
        }
        Err(Difference(format!(
            "{what}: first {one:?}, second {two:?}, accepted and different wanted"
        )))
    }

    /// The two stands differ in this one cell, in its section's hash and in the digest, and in no other hash; set
    /// back, the second has all hashes and the digest of the first.
    pub fn one_off(&mut self, one: &Stand, two: &mut Stand, change: Change) -> Same {
        let cells = cells_of(one.volume);
        self.cells([one, two], &cells, Some(change))?;
        self.sections([one, two], change.cell)?;
        self.apart([one, two], change.cell)?;
        let back = Step::Call(Call::Set(change.cell, change.from));
        two.make(&back, self)?;
        self.cells([one, two], &cells, None)?;
        self.alike([one, two])
    }

    /// Origin and size are the same, and the finish of each cell inside but the changed one.
    fn cells(&mut self, pair: [&Stand; 2], cells: &[Cell], change: Option<Change>) -> Same {
        self.tally.compared(Kind::Cells);
        let [one, two] = pair.map(|s| (s.volume.origin, s.volume.size, s.volume.chunks));
        agree("shape of the second", two, "that of the first", one)?;
        for cell in cells {
            let got = pair.map(|s| s.get(*cell));
            let due = match change.filter(|c| c.cell == *cell) {
                Some(c) => [c.from, c.to].map(|finish| accepted(u64::from(finish))),
                None => [accepted(got[0].value); 2],
            };
            if got != due {
                let what = format!("get of {cell:?}, first and second");
                return agree(&what, got, "wanted", due);
            }
        }
        Ok(())
    }

    /// Both answer the cell's section by the model.
    fn sections(&mut self, pair: [&Stand; 2], cell: Cell) -> Same {
        for stand in pair {
            self.tally.compared(Kind::Section);
            let due = accepted(section_of(stand.volume, cell) as u64);
            agree("chunk_of", ours::chunk_of(stand.volume, cell), MODEL, due)?;
        }
        Ok(())
    }

    /// A section's hash in both.
    fn hashes(&self, pair: [&Stand; 2], chunk: usize) -> [Number; 2] {
        pair.map(|s| self.ours.chunk_hash(s, chunk))
    }

    /// The digests of both.
    fn digests(&self, pair: [&Stand; 2]) -> [Number; 2] {
        pair.map(|s| self.ours.digest(s))
    }

    /// The hash of the cell's section differs and no other one; the digest differs.
    fn apart(&mut self, pair: [&Stand; 2], cell: Cell) -> Same {
        let section = section_of(pair[0].volume, cell);
        for chunk in 0..model::sections(pair[0].volume) {
            let hashes = self.hashes(pair, chunk);
            if chunk == section {
                self.differ(Kind::Hash, "hash of the cell's section", hashes)?;
            } else {
                self.same(Kind::OtherHash, "hash of another section", hashes)?;
            }
        }
        self.differ(Kind::Digest, "digest", self.digests(pair))
    }

    /// All hashes and the digest are the same.
    fn alike(&mut self, pair: [&Stand; 2]) -> Same {
        for chunk in 0..model::sections(pair[0].volume) {
            let hashes = self.hashes(pair, chunk);
            self.same(Kind::BackHash, "hash after the set back", hashes)?;
        }
        self.same(
            Kind::BackDigest,
            "digest after the set back",
            self.digests(pair),
        )
    }
}
