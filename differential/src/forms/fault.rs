//! Our side's calls on forms, and faults put into them on purpose, to see that the run finds them.

use super::encoder::{Form, Record};
use super::loader;
use crate::ffi::{Number, Opened, Volume};
use crate::ours::{self, Storage};

#[derive(Clone, Copy, PartialEq, Debug)]
pub enum Fault {
    /// A store that keeps cells beyond the size.
    Beyond,
    /// A length from the header's count of occupied cells.
    Solid,
    /// A store that writes a byte and then refuses by 15.
    Partial,
    /// A load that counts its cells as generations.
    Generation,
    /// A load that leaves one version.
    Version,
    /// A load that writes a cell before the whole form is checked.
    Early,
    /// A load that takes a size below 1 for 1, as opening does.
    Clamped,
    /// A load that leaves bytes after the digest unread.
    Unread,
    /// 4 only for a form that 14 lets pass.
    FourLast,
}

pub const ALL: [Fault; 9] = [
    Fault::Beyond,
    Fault::Solid,
    Fault::Partial,
    Fault::Generation,
    Fault::Version,
    Fault::Early,
    Fault::Clamped,
    Fault::Unread,
    Fault::FourLast,
];

/// Our side, with a fault or with none.
#[derive(Clone, Copy, Default)]
pub struct Ours(pub Option<Fault>);

impl Ours {
    pub fn store(self, v: Volume, cells: &[u16], out: &mut [u8]) -> Number {
        let mut done = ours::store(v, cells, out);
        match self.0 {
            Some(Fault::Beyond) if done.code == 0 => {
                let form = with_all_slots(v, cells).bytes();
                if out.len() >= form.len() {
                    out[..form.len()].copy_from_slice(&form);
                    done.value = form.len() as u64;
                }
            }
            Some(Fault::Partial) if done.code == 15 => {
                out.iter_mut().take(1).for_each(|byte| *byte ^= 1);
            }
            _ => {}
        }
        done
    }

    pub fn stored_length(self, v: Volume, cells: &[u16]) -> Number {
        let mut done = ours::stored_length(v, cells);
        if self.0 == Some(Fault::Solid) && done.code == 0 {
            done.value = v.solid.wrapping_mul(7).wrapping_add(34);
        }
        done
    }

    pub fn load(self, form: &[u8], s: &mut Storage) -> Opened {
        let kept = s.versions.last().copied();
        let mut done = match self.0 {
            Some(Fault::Clamped) => ours::load(&clamped(form), s),
            Some(Fault::Unread) => load_first(form, s),
            _ => ours::load(form, s),
        };
        match (self.0, done.code) {
            (Some(Fault::Generation), 0) => done.volume.generation = done.volume.solid,
            (Some(Fault::Version), 0) => {
                if let (Some(version), Some(old)) = (s.versions.last_mut(), kept) {
                    *version = old;
                }
            }
            (Some(Fault::Early), 14) => s.cells.iter_mut().take(1).for_each(|c| *c ^= 1),
            (Some(Fault::FourLast), 4) => done.code = loader::load(form, None).err().unwrap_or(4),
            _ => {}
        }
        done
    }

    pub fn stored_header(self, form: &[u8]) -> Opened {
        ours::stored_header(form)
    }
}

/// A form of every occupied slot.
fn with_all_slots(v: Volume, cells: &[u16]) -> Form {
    let slots = cells.iter().enumerate().filter(|(_, finish)| **finish != 0);
    Form {
        origin: v.origin,
        size: v.size,
        records: slots.map(|(slot, f)| Record::at(slot, *f)).collect(),
    }
}

/// The form with sizes below 1 made 1.
fn clamped(form: &[u8]) -> Vec<u8> {
    let mut form = form.to_vec();
    if form.len() >= 25 {
        for size in form[13..25]
            .chunks_mut(4)
            .filter(|n| n[3] > 127 || *n == [0; 4])
        {
            size.copy_from_slice(&[1, 0, 0, 0]);
        }
    }
    form
}

/// Loads the longest beginning that is a form, of those a few bytes short.
fn load_first(form: &[u8], s: &mut Storage) -> Opened {
    let shorter = (0..=16.min(form.len())).map(|less| &form[..form.len() - less]);
    let loaded = shorter
        .map(|part| ours::load(part, s))
        .find(|o| o.code == 0);
    loaded.unwrap_or_else(|| ours::load(form, s))
}
