//! Storage of any contents: slots beyond the size, log, last changes and generation as no calls leave them.

use crate::ffi::{Cell, Extent, Volume};
use crate::model;
use crate::ours::Storage;
use crate::rng::Rng;

/// A storage slot and the finish that it holds.
pub type Slot = (usize, u16);

/// Header and lists.
pub struct Stand {
    pub volume: Volume,
    pub storage: Storage,
}

/// How the slots of a section are occupied.
#[derive(Clone, Copy)]
enum Way {
    /// So many in a hundred, at random.
    Share(u64),
    /// Full layers with gaps between them, along an axis.
    Layers(usize),
    Checkered,
}

const WAYS: [Way; 12] = [
    Way::Share(0),
    Way::Share(1),
    Way::Share(10),
    Way::Share(50),
    Way::Share(50),
    Way::Share(90),
    Way::Share(99),
    Way::Share(100),
    Way::Layers(0),
    Way::Layers(1),
    Way::Layers(2),
    Way::Checkered,
];

impl Way {
    fn occupies(self, within: usize, rng: &mut Rng) -> bool {
        let at = place(within);
        match self {
            Self::Share(percent) => rng.chance(percent),
            Self::Layers(axis) => at[axis] % 2 == 0,
            Self::Checkered => at.iter().sum::<usize>() % 2 == 0,
        }
    }
}

/// The place of a slot within its section.
pub fn place(within: usize) -> [usize; 3] {
    [within % 16, within / 16 % 16, within / 256]
}

/// The occupied slots of some sections, those beyond the size among them; each section has its own way and finishes.
pub fn occupied(sections: usize, rng: &mut Rng) -> Vec<Slot> {
    let mut slots = Vec::new();
    for section in 0..sections {
        let (way, finishes) = (rng.pick(&WAYS), rng.pick(&[1, 2, 3, 200, 65_535]));
        for within in 0..4_096 {
            if way.occupies(within, rng) {
                slots.push((section * 4_096 + within, 1 + rng.below(finishes) as u16));
            }
        }
    }
    slots
}

impl Stand {
    /// Cells as given, all else empty or 0.
    pub fn of(origin: Cell, size: Extent, occupied: &[Slot]) -> Self {
        let volume = model::opened(origin, size);
        let mut storage = Storage::zeros(model::sections(volume));
        for (slot, finish) in occupied {
            storage.cells[*slot] = *finish;
        }
        Self { volume, storage }
    }

    /// All but shape and cells becomes anything; log and last changes agree in part.
    pub fn age(&mut self, rng: &mut Rng) {
        let (v, s) = (&mut self.volume, &mut self.storage);
        let n = s.log.len() as u64;
        v.solid = rng.next();
        v.generation = match rng.below(4) {
            0 => rng.below(n + 3),
            1 => u64::MAX - rng.below(n + 3),
            2 => rng.next(),
            _ => rng.below(1_000),
        };
        let now = v.generation;
        for section in &mut s.log {
            let any = rng.next() as u32;
            *section = rng.pick(&[any, n as u32, u32::MAX]);
            if rng.chance(80) {
                *section = rng.below(n) as u32;
            }
        }
        for last in &mut s.last {
            let near = now.wrapping_sub(rng.below(n + 3));
            *last = if rng.chance(70) { near } else { rng.next() };
        }
        // Of the latest changes most are told as a set would tell them.
        for change in now.saturating_sub(n)..now {
            let section = s.log[(change % n) as usize] as usize;
            if let Some(last) = s.last.get_mut(section).filter(|_| rng.chance(75)) {
                *last = change + 1;
            }
        }
    }
}
