//! Our side's hashes and digests, and faults put into them on purpose, to see that the run finds them.

use super::stand::Stand;
use crate::ffi::Number;
use crate::model;
use crate::ours;

#[derive(Clone, Copy, PartialEq, Debug)]
pub enum Fault {
    /// A digest over the first section's hash alone.
    First,
    /// A digest that counts the generation in.
    Generation,
    /// A hash of the finishes' low bytes alone.
    Low,
}

pub const ALL: [Fault; 3] = [Fault::First, Fault::Generation, Fault::Low];

/// Our side, with a fault or with none.
#[derive(Clone, Copy, Default)]
pub struct Ours(pub Option<Fault>);

impl Ours {
    /// The stand's digest.
    pub fn digest(self, stand: &Stand) -> Number {
        let (v, hashes) = (stand.volume, &stand.storage.hashes);
        let mut got = ours::digest(v, hashes);
        match self.0 {
            Some(Fault::First) => got.value = model::digest(v, &hashes[..1]),
            Some(Fault::Generation) => got.value ^= v.generation,
            _ => {}
        }
        got
    }

    /// A section's hash.
    pub fn chunk_hash(self, stand: &Stand, chunk: usize) -> Number {
        let mut got = ours::chunk_hash(stand.volume, &stand.storage.hashes, chunk);
        if self.0 == Some(Fault::Low) {
            got.value = low(&stand.storage.cells[chunk * 4_096..][..4_096]);
        }
        got
    }
}

/// A section's hash from the low bytes of its finishes.
fn low(section: &[u16]) -> u64 {
    let bytes = section.iter().map(|finish| finish & 255);
    let occupied = bytes.enumerate().filter(|(_, byte)| *byte != 0);
    occupied.fold(0, |hash, (within, byte)| hash ^ model::term(within, byte))
}
