//! Damaged calls: forged headers, lists of other lengths, arguments out of range. Our side alone is
//! called; what it must answer comes from the model.

mod calls;
mod edges;
pub mod forge;

use crate::calls::list;
use crate::counts::{Counts, Kind};
use crate::ffi::{Number, Volume};
use crate::ours::Storage;
use crate::pair::{Difference, Pair, Same};
use crate::rng::Rng;
use crate::tiers;
use crate::trial::tally::{count, listed, merge};
use edges::EDGES;
use std::collections::BTreeMap;

const PER_STAND: u64 = 100;

pub struct Summary {
    pub counts: Counts,
    pub tally: Tally,
    pub found: Option<(u64, Difference)>,
}

/// Answers by code, 0 for accepted.
type Codes = BTreeMap<u32, u64>;

#[derive(Default)]
pub struct Tally {
    codes: Codes,
    /// Those of fills beside the stand.
    beside: Codes,
    edges: [u64; EDGES.len()],
}

impl Tally {
    fn add(&mut self, other: Self) {
        merge(&mut self.codes, &other.codes);
        merge(&mut self.beside, &other.beside);
        for (mine, theirs) in self.edges.iter_mut().zip(other.edges) {
            *mine += theirs;
        }
    }

    pub fn print(&self) {
        println!(
            "  answers by code (0 accepted): {}; of fills beside the stand: {}",
            listed(&self.codes),
            listed(&self.beside)
        );
        let edges = EDGES.iter().zip(self.edges);
        for ((name, code, _), n) in edges {
            println!("  fills, {name}, code {code}: {n}");
        }
    }
}

/// `count` damaged calls.
pub fn run(count: u64, seed: u64) -> Summary {
    let mut all = Summary {
        counts: Counts::default(),
        tally: Tally::default(),
        found: None,
    };
    for stand in 0..count.div_ceil(PER_STAND) {
        let mut rng = Rng::of(seed, 9, stand);
        let mut hurt = Hurt::new(&mut rng);
        let calls = PER_STAND.min(count - stand * PER_STAND);
        let result = (0..calls).try_for_each(|number| hurt.one(number, &mut rng));
        all.counts.add(&hurt.counts);
        all.tally.add(hurt.tally);
        if let Err(difference) = result {
            all.found = Some((stand, difference));
            break;
        }
    }
    all
}

/// A stand reached by calls, and the call at work on a damaged copy of it.
struct Hurt {
    volume: Volume,
    storage: Storage,
    v: Volume,
    s: Storage,
    counts: Counts,
    tally: Tally,
}

impl Hurt {
    fn new(rng: &mut Rng) -> Self {
        let made = list(tiers::TIERS[0].mix, 12, rng);
        let mut pair = Pair::new(false);
        for call in &made {
            // Differences in these calls are the tiers' to find.
            let _ = pair.call(call);
        }
        let counts = Counts {
            lists: 1,
            ..Counts::default()
        };
        Self {
            volume: pair.volume,
            storage: pair.storage.clone(),
            v: pair.volume,
            s: pair.storage,
            counts,
            tally: Tally::default(),
        }
    }

    /// The call of a number on this stand: first each edge once.
    fn one(&mut self, number: u64, rng: &mut Rng) -> Same {
        self.v = self.volume;
        self.s.clone_from(&self.storage);
        self.counts.calls += 1;
        if (number as usize) < EDGES.len() {
            return self.edge(number as usize, rng);
        }
        if rng.chance(40) {
            forge::damage_header(&mut self.v, rng);
        }
        if rng.chance(30) {
            forge::damage_lists(&mut self.s, self.v.generation, rng);
        }
        match rng.below(20) {
            0..4 => self.set(rng),
            4..7 => self.fill(rng),
            7 => self.open(),
            8..11 => self.reads(rng),
            11..13 => self.feed(rng),
            13..17 => self.mesh(rng),
            17..19 => self.slice(rng),
            _ => self.claim(rng),
        }
    }

    /// Holds a code to the model's, and what a refused answer has beside it to nothing.
    fn hold(&mut self, what: &str, got: u32, wanted: u32, rest: bool) -> Same {
        self.counts.compared(Kind::Answer);
        count(&mut self.tally.codes, wanted);
        if got == wanted && (got == 0 || rest) {
            return Ok(());
        }
        Err(self.differs(&format!(
            "{what}: ours {got}, wanted {wanted}, rest as wanted: {rest}"
        )))
    }

    fn differs(&self, what: &str) -> Difference {
        let s = &self.s;
        let lengths = [
            s.cells.len(),
            s.hashes.len(),
            s.versions.len(),
            s.log.len(),
            s.last.len(),
        ];
        Difference(format!("{what}; header {:?}, lists of {lengths:?}", self.v))
    }

    fn kept(&mut self, what: &str, kept: bool) -> Same {
        self.counts.compared(Kind::Kept);
        if kept {
            return Ok(());
        }
        Err(self.differs(&format!("{what}: lists are not as wanted")))
    }

    fn number(&mut self, what: &str, got: Number, code: u32, value: u64) -> Same {
        self.hold(what, got.code, code, got.value == 0)?;
        if code == 0 && got.value != value {
            return Err(self.differs(&format!("{what}: ours {}, wanted {value}", got.value)));
        }
        Ok(())
    }
}
