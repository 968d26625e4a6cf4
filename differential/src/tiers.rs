//! The tiers of the run: lists made from the seed, many stands of each kind.

use crate::calls::{self, Call, Mix};
use crate::ffi::Extent;
use crate::many::{Summary, run_lists};
use crate::rng::Rng;
use crate::run::{ALL, Options};

#[derive(Clone, Copy)]
pub struct Tier {
    pub name: &'static str,
    pub number: u64,
    pub calls: u64,
    pub per_list: u64,
    pub mesh_every: usize,
    pub mix: Mix,
}

pub const TIERS: [Tier; 3] = [
    Tier {
        name: "stands of at most 64 cells, everything compared after each call",
        number: 1,
        calls: 9_900_000,
        per_list: 100,
        mesh_every: 1,
        mix: Mix {
            sizes: small,
            reach: 4,
        },
    },
    Tier {
        name: "up to 8 sections, panels after each 20th call",
        number: 2,
        calls: 100_000,
        per_list: 200,
        mesh_every: 20,
        mix: Mix {
            sizes: medium,
            reach: 8,
        },
    },
    Tier {
        name: "up to 64 sections, panels after each 4th call",
        number: 3,
        calls: 2_000,
        per_list: 40,
        mesh_every: 4,
        mix: Mix {
            sizes: large,
            reach: 12,
        },
    },
];

/// Calls of the three tiers together.
pub const CALLS: u64 = TIERS[0].calls + TIERS[1].calls + TIERS[2].calls;

/// Of some calls, the share that a run with `asked` calls in the tiers makes, rounded down.
pub fn share(calls: u64, asked: u64) -> u64 {
    (u128::from(calls) * u128::from(asked) / u128::from(CALLS)) as u64
}

/// The tiers cut to `asked` calls together, in their shares; the first makes what rounding leaves.
pub fn cut(asked: u64) -> [Tier; 3] {
    let [_, second, third] = TIERS.map(|tier| share(tier.calls, asked));
    let calls = [asked - second - third, second, third];
    [0, 1, 2].map(|i| Tier {
        calls: calls[i],
        ..TIERS[i]
    })
}

fn turned(size: [i32; 3], rng: &mut Rng) -> Extent {
    let a = rng.below(3) as usize;
    let b = (a + 1 + rng.below(2) as usize) % 3;
    Extent {
        x: size[a],
        y: size[b],
        z: size[3 - a - b],
    }
}

/// At most 64 cells, two in five long ones, most of these across a section's edge.
fn small(rng: &mut Rng) -> Extent {
    if rng.chance(40) {
        let long = rng.pick(&[15, 16, 17, 18, 31, 32, 33, 47, 48, 49, 63, 64]);
        let wide = rng.between(1, i64::from(64 / long).min(4)) as i32;
        return turned([long, wide, 1], rng);
    }
    let a = rng.between(1, 6) as i32;
    let b = rng.between(1, i64::from(64 / a).min(6)) as i32;
    let c = rng.between(1, i64::from(64 / a / b).min(6)) as i32;
    turned([a, b, c], rng)
}

/// Up to `most` sections, four in five times at least `least`.
fn sized(least: i64, most: i64, edges: &[i32], rng: &mut Rng) -> Extent {
    let least = if rng.chance(80) { least } else { 1 };
    loop {
        let mut on = || {
            if rng.chance(75) {
                rng.pick(edges)
            } else {
                rng.between(1, 40) as i32
            }
        };
        let size = [on(), on(), on()];
        let sections: i64 = size.iter().map(|n| i64::from((n + 15) / 16)).product();
        if (least..=most).contains(&sections) {
            return turned(size, rng);
        }
    }
}

/// At most 4 sections, for the recorded calls.
pub fn few(rng: &mut Rng) -> Extent {
    sized(1, 4, &[1, 1, 2, 5, 15, 16, 17, 32, 33, 64], rng)
}

/// At most 4 sections, most of them narrow and across a section's edge, for the trial program.
pub fn offered(rng: &mut Rng) -> Extent {
    const LONG: [i32; 16] = [1, 2, 15, 16, 17, 18, 31, 32, 33, 33, 34, 48, 49, 49, 63, 64];
    const WIDE: [i32; 5] = [15, 16, 17, 31, 32];
    match rng.below(20) {
        0..10 => turned([rng.pick(&LONG), rng.between(1, 3) as i32, 1], rng),
        10..14 => {
            let [a, b] = [0; 2].map(|_| rng.between(3, 5) as i32);
            turned([rng.pick(&LONG), a, b], rng)
        }
        14..19 => sized(2, 4, &[1, 1, 1, 2, 16, 17, 31, 32, 33, 48, 64], rng),
        _ => {
            let deep = rng.between(1, 16) as i32;
            turned([rng.pick(&WIDE), rng.pick(&WIDE), deep], rng)
        }
    }
}

fn medium(rng: &mut Rng) -> Extent {
    sized(2, 8, &[1, 1, 2, 15, 16, 17, 31, 32, 33, 48, 128], rng)
}

/// Up to 27 sections, most of them thin, for the price sheet.
pub fn sheeted(rng: &mut Rng) -> Extent {
    if rng.chance(4) {
        return turned([48, 48, rng.pick(&[33, 48])], rng);
    }
    sized(2, 27, &[1, 1, 1, 2, 3, 16, 17, 17, 33, 48, 432], rng)
}

fn large(rng: &mut Rng) -> Extent {
    sized(
        9,
        64,
        &[1, 15, 16, 17, 31, 32, 33, 48, 49, 64, 64, 1_024],
        rng,
    )
}

pub fn calls_of(tier: &Tier, seed: u64, list: u64) -> Vec<Call> {
    let left = tier.calls - list * tier.per_list;
    let count = left.min(tier.per_list) as usize;
    calls::list(tier.mix, count, &mut Rng::of(seed, tier.number, list))
}

pub fn run_tier(tier: &Tier, seed: u64, catch: bool) -> Summary {
    let options = Options {
        mesh_every: tier.mesh_every,
        catch,
        ..ALL
    };
    let lists = tier.calls.div_ceil(tier.per_list);
    run_lists(lists, options, |list| calls_of(tier, seed, list))
}
