//! Faults put into our side on purpose, to see that the comparison finds them.

use crate::ffi::Volume;
use crate::ours::Storage;

#[derive(Clone, Copy, PartialEq, Debug)]
pub enum Fault {
    Cell,
    Hash,
    Version,
    Log,
    Last,
    Generation,
    Solid,
    /// "Unchanged" for a set that changes.
    Answer,
    Digest,
    /// Walks that end before their last section or cell.
    Feed,
    Solids,
    /// A panel's extent, a slot left in the mask, a number after the last panel, a panel not claimed.
    Panel,
    Mask,
    Tail,
    Claim,
    /// A header where opening would refuse, or none where it would not; mask slots miscounted.
    Header,
    Slots,
    /// A fill beside the stand that reaches its rim.
    Rim,
    /// A refresh that measures only changed sections, and one that adds a row to the old one.
    Neighbours,
    Added,
}

pub const ALL: [Fault; 20] = [
    Fault::Cell,
    Fault::Hash,
    Fault::Version,
    Fault::Log,
    Fault::Last,
    Fault::Generation,
    Fault::Solid,
    Fault::Answer,
    Fault::Digest,
    Fault::Feed,
    Fault::Solids,
    Fault::Panel,
    Fault::Mask,
    Fault::Tail,
    Fault::Claim,
    Fault::Header,
    Fault::Slots,
    Fault::Rim,
    Fault::Neighbours,
    Fault::Added,
];

impl Fault {
    /// A fault of the price sheet.
    pub fn of_sheet(self) -> bool {
        matches!(self, Self::Neighbours | Self::Added)
    }

    /// Storage and header after a set.
    pub fn spoil(self, v: &mut Volume, s: &mut Storage) {
        match self {
            Self::Cell => s.cells[4_095] ^= 1,
            Self::Hash => s.hashes[0] ^= 1,
            Self::Version => s.versions[0] ^= 1,
            Self::Log => s.log[0] ^= 1,
            Self::Last => s.last[0] ^= 1,
            Self::Generation => v.generation += 1,
            Self::Solid => v.solid += 1,
            _ => {}
        }
    }

    /// Mask and list after a meshing call that wrote `panels`.
    pub fn spoil_mesh(self, panels: usize, mask: &mut [u16], list: &mut [i32]) {
        match self {
            Self::Panel => list
                .iter_mut()
                .take(panels * 8)
                .skip(5)
                .take(1)
                .for_each(|n| *n += 1),
            Self::Mask => mask.iter_mut().take(1).for_each(|n| *n = 7),
            Self::Tail => list
                .iter_mut()
                .skip(panels * 8)
                .take(1)
                .for_each(|n| *n = 7),
            _ => {}
        }
    }
}
