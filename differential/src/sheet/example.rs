//! Document 01's example: a fill across two sections, priced, then one cell taken away.

use super::run::OPTIONS;
use super::{Ask, Card};
use crate::calls::Call;
use crate::counts::Kind;
use crate::ffi::{Cell, Extent};
use crate::many::Summary;
use crate::ours;
use crate::pair::{Pair, Same};
use crate::run::Outcome;

const CARD: Card = Card {
    length: 64,
    low: u32::MAX,
    step: 0,
    odd: (3, 100),
    cut: 50,
};

fn at(x: i32) -> Cell {
    Cell { x, y: 0, z: 0 }
}

/// The calls up to each price line, and generation, panels, faces, cents there.
fn lines() -> [(Vec<Call>, [u64; 4]); 2] {
    let size = Extent { x: 17, y: 1, z: 1 };
    let first = vec![
        Call::Open(at(0), size),
        Call::Fill(at(0), at(16), 3),
        Call::Sheet(Ask::Open(CARD, 1)),
    ];
    let second = vec![Call::Set(at(16), 0), Call::Sheet(Ask::Refresh)];
    [(first, [17, 10, 70, 7_500]), (second, [18, 6, 66, 6_900])]
}

pub fn example() -> Summary {
    let mut pair = Pair::new(false);
    pair.counts.lists = 1;
    let difference = play(&mut pair).err();
    let outcome = Outcome {
        counts: pair.counts,
        panics: Vec::new(),
        difference,
    };
    let mut summary = Summary::default();
    let calls = lines().into_iter().flat_map(|line| line.0).collect();
    summary.add(0, calls, outcome, OPTIONS);
    summary
}

fn play(pair: &mut Pair) -> Same {
    for (calls, wanted) in lines() {
        for call in &calls {
            pair.call(call)?;
        }
        let sums = ours::totals(pair.volume, &pair.sheet.rows);
        let line = [pair.volume.generation, sums.panels, sums.faces, sums.cents];
        pair.same(Kind::Sums, "document 01's example", line, wanted)?;
    }
    Ok(())
}
