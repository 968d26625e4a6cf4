//! One random stand of any contents, its openings and refreshes.

use super::check::Check;
use super::fault::Ours;
use super::stand::{Slot, Stand, occupied};
use super::tally::Tally;
use crate::calls::{Call, Maker};
use crate::ffi::Volume;
use crate::ours::sections_of;
use crate::pair::{Difference, Same};
use crate::rng::Rng;
use crate::sheet::Card;
use crate::sheet::attempt::Job;
use crate::tiers::TIERS;

/// A card that has a rate for each finish.
const WHOLE: Card = Card {
    length: 65_536,
    low: 100,
    step: 37,
    odd: (0, 0),
    cut: 50,
};

/// Openings and refreshes under each rule that may be refused.
const SOME: usize = 4;

pub struct Case {
    /// The occupied slots.
    pub occupied: Vec<Slot>,
    maker: Maker,
    seed: u64,
    number: u64,
}

impl Case {
    /// Stands of 1 to 8 sections.
    pub fn make(seed: u64, number: u64) -> Self {
        let rng = &mut Rng::of(seed, 40, number);
        let mut maker = Maker::new(TIERS[1].mix);
        maker.opening(rng);
        Self {
            occupied: occupied(sections_of(maker.size), rng),
            maker,
            seed,
            number,
        }
    }

    /// The same case with other slots occupied.
    pub fn with(&self, occupied: &[Slot]) -> Self {
        Self {
            occupied: occupied.to_vec(),
            ..*self
        }
    }

    /// The opening that gives its shape.
    pub fn opening(&self) -> Call {
        Call::Open(self.maker.origin, self.maker.size)
    }

    pub fn run(&self, ours: Ours) -> (Tally, Option<Difference>) {
        let mut check = Check::new(ours, Rng::of(self.seed, 42, self.number));
        let same = self.all(&mut check);
        (check.tally, same.err())
    }

    fn all(&self, check: &mut Check) -> Same {
        let rng = &mut Rng::of(self.seed, 41, self.number);
        let (origin, size) = (self.maker.origin, self.maker.size);
        let mut stand = Stand::of(origin, size, &self.occupied);
        stand.age(rng);
        let sections = stand.storage.log.len() as u64;
        check.tally.stand(sections as usize);
        for rule in [0, 1] {
            for job in jobs(stand.volume, sections, rule, rng) {
                check.measure(&stand, &job)?;
            }
        }
        Ok(())
    }
}

/// An opening and a refresh that are accepted, then some of any kind.
fn jobs(v: Volume, sections: u64, rule: u32, rng: &mut Rng) -> Vec<Job> {
    let opening = Job::opening(v, rng.next(), WHOLE, rule);
    let refresh = Job {
        refresh: true,
        mark: mark(v.generation, sections, rng).min(v.generation),
        ..opening
    };
    let mut jobs = vec![opening, refresh];
    for _ in 0..SOME {
        let mark = mark(v.generation, sections, rng);
        jobs.push(Job {
            refresh: rng.chance(75),
            short: rng.chance(10),
            over: rng.pick(&[0, 1, 7, 300]),
            ..Job::opening(v, mark, Card::any(rng), rule)
        });
    }
    jobs
}

/// At the generation, ahead of it, and below: by up to as many changes as sections, by more, by anything.
fn mark(now: u64, sections: u64, rng: &mut Rng) -> u64 {
    match rng.below(10) {
        0 => now,
        1 => now.saturating_add(1 + rng.below(3)),
        2 => now.saturating_sub(sections),
        3 => now.saturating_sub(sections + 1),
        4 => rng.next(),
        _ => now.saturating_sub(rng.below(sections + 1)),
    }
}
