//! Random lists: edits of a stand, and calls on its sheet between them.

use super::trial::{Ask, By, Sum, Trial};
use super::{Card, Harm};
use crate::calls::{Call, Maker, Mix, finish};
use crate::ffi::Extent;
use crate::ours::sections_of;
use crate::rng::Rng;
use crate::tiers::sheeted;

const PER_LIST: u64 = 100;

const MIX: Mix = Mix {
    sizes: sheeted,
    reach: 3,
};

/// The number of lists that hold so many calls.
pub fn lists(calls: u64) -> u64 {
    calls.div_ceil(PER_LIST)
}

pub fn calls_of(calls: u64, seed: u64, list: u64) -> Vec<Call> {
    let count = PER_LIST.min(calls - list * PER_LIST) as usize;
    let mut rng = Rng::of(seed, 4, list);
    let mut maker = Maker::new(MIX);
    let mut all = Vec::new();
    anew(&mut maker, &mut all, &mut rng);
    while all.len() < count {
        more(&mut maker, &mut all, &mut rng);
    }
    all.truncate(count);
    all
}

fn more(maker: &mut Maker, all: &mut Vec<Call>, rng: &mut Rng) {
    match rng.below(40) {
        0 => anew(maker, all, rng),
        1 => all.push(maker.refused_open(rng)),
        2..5 => all.push(open(rng)),
        5..11 => all.push(Call::Sheet(Ask::Trial(trial(maker.size, rng)))),
        11..14 => all.push(Call::Sheet(Ask::Sum(sum(rng)))),
        _ => {
            burst(maker, all, rng);
            all.push(Call::Sheet(Ask::Refresh));
        }
    }
}

/// A stand opened anew, and its sheet.
fn anew(maker: &mut Maker, all: &mut Vec<Call>, rng: &mut Rng) {
    all.push(maker.open(rng));
    if rng.chance(50) {
        all.push(maker.fill(rng));
    }
    all.push(open(rng));
}

fn open(rng: &mut Rng) -> Call {
    Call::Sheet(Ask::Open(Card::any(rng), rng.below(2) as u32))
}

/// Edits before a refresh: none, one, a few, and around as many as there are sections.
fn burst(maker: &mut Maker, all: &mut Vec<Call>, rng: &mut Rng) {
    let n = sections_of(maker.size) as i64;
    let count = match rng.below(10) {
        0 => 0,
        1..4 => 1,
        4..7 => rng.between(2, 5),
        _ => rng.between(n, n + 2),
    };
    for _ in 0..count {
        let call = match rng.below(20) {
            0..10 => Call::Set(maker.cell(rng), finish(rng)),
            10..17 => Call::SetLent(maker.cell(rng), finish(rng)),
            17 => maker.fill(rng),
            _ => again(all, maker, rng),
        };
        all.push(call);
    }
}

/// The edit before once more, which then changes nothing.
fn again(all: &[Call], maker: &mut Maker, rng: &mut Rng) -> Call {
    match all.last() {
        Some(edit @ (Call::Set(..) | Call::SetLent(..) | Call::Fill(..))) => *edit,
        _ => Call::Set(maker.cell(rng), finish(rng)),
    }
}

fn harm(rng: &mut Rng) -> Harm {
    let axis = rng.below(3) as usize;
    match rng.below(20) {
        0 => Harm::Chunks(axis),
        1 => Harm::Size(axis),
        2 => Harm::CellsShort,
        3 => Harm::LogShort,
        4 => Harm::LastShort,
        5 => Harm::SheetShort,
        6 => Harm::SheetLong,
        _ => Harm::None,
    }
}

fn trial(size: Extent, rng: &mut Rng) -> Trial {
    let n = sections_of(size) as u64;
    Trial {
        refresh: rng.chance(75),
        card: Card::any(rng),
        rule: if rng.chance(3) {
            2
        } else {
            rng.below(2) as u32
        },
        lag: (!rng.chance(15)).then(|| rng.below(n + 3)),
        short: rng.chance(20),
        harm: harm(rng),
    }
}

fn sum(rng: &mut Rng) -> Sum {
    Sum {
        full: rng.chance(40),
        at: rng.below(81) as usize,
        by: rng.pick(&[By::Limit, By::Limit, By::Above, By::Largest]),
        harm: harm(rng),
    }
}
