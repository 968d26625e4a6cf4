//! One section under an outside rule: what chunk_faces writes of it.

use super::stand::Stand;
use crate::ffi::{Extent, Number};
use crate::model;
use crate::ours;
use crate::sheet::measured::Cut;
use crate::sheet::sums::MOST;

/// Numbers of a panel.
pub const NUMBERS: usize = 8;

#[derive(Clone, Copy)]
pub struct Section<'a> {
    stand: &'a Stand,
    number: usize,
    rule: u32,
}

impl<'a> Section<'a> {
    pub fn of(stand: &'a Stand, number: usize, rule: u32) -> Self {
        Self {
            stand,
            number,
            rule,
        }
    }

    /// The mask slots that 10 wants.
    pub fn want(&self) -> usize {
        model::want(self.stand.volume, Some(self.number))
    }

    pub fn chunk_faces(&self, mask: &mut [u16], list: &mut [i32]) -> Number {
        let (v, cells) = (self.stand.volume, &self.stand.storage.cells);
        ours::chunk_faces(v, cells, self.number, self.rule, mask, list)
    }

    /// All panels, in a list that is always long enough; refused, it would be no list at all.
    pub fn list(&self) -> Vec<i32> {
        let mut list = vec![0; MOST[0] as usize * NUMBERS];
        let got = self.chunk_faces(&mut [0; 256], &mut list);
        assert_eq!(
            got.code, 0,
            "chunk_faces with a list that is always long enough"
        );
        list.truncate(got.value as usize * NUMBERS);
        list
    }
}

/// Finish and faces of each panel written: number 4, and the product of numbers 5, 6 and 7.
pub fn cuts(list: &[i32]) -> Vec<Cut> {
    let faces = |x, y, z| model::merged(Extent { x, y, z }).unwrap_or(0);
    let cut = |p: &[i32]| (p[4] as u16, faces(p[5], p[6], p[7]));
    list.chunks_exact(NUMBERS).map(cut).collect()
}

/// How many panels each slice has that has any: those of a slice stand side by side in the list.
pub fn slices(list: &[i32]) -> Vec<usize> {
    let slice = |p: &[i32]| (p[3], p.get(p[3] as usize / 2).copied());
    let slices: Vec<_> = list.chunks_exact(NUMBERS).map(slice).collect();
    slices.chunk_by(|a, b| a == b).map(<[_]>::len).collect()
}
