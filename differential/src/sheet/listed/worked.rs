//! Worked stands, their rows counted by hand from document 01: finish 1 at 100, finish 2 at 200, cut 50.

use super::check::Check;
use super::section::{Section, slices};
use super::stand::{Slot, Stand, place};
use crate::calls::extent_of;
use crate::counts::Kind;
use crate::ffi::{Cell, Volume};
use crate::pair::{Difference, Same};
use crate::sheet::Card;
use crate::sheet::attempt::Job;
use crate::sheet::measured::Row;

const CARD: Card = Card {
    length: 3,
    low: 0,
    step: 100,
    odd: (0, 0),
    cut: 50,
};

/// The changes of each stand, the last of them in its first section.
const NOW: u64 = 9;

/// The finish of a slot, by its section and its place within.
type Finish = fn(usize, [usize; 3]) -> u16;

struct Worked {
    name: &'static str,
    size: [i32; 3],
    finish: Finish,
    /// Under outside solid (0) and outside empty (1).
    rows: [&'static [Row]; 2],
    /// The most panels in a slice of the first section, under both.
    in_slice: [usize; 2],
}

/// A stand of one section.
const fn section(
    name: &'static str,
    finish: Finish,
    rows: [&'static [Row]; 2],
    in_slice: [usize; 2],
) -> Worked {
    Worked {
        name,
        size: [16; 3],
        finish,
        rows,
        in_slice,
    }
}

/// 8 layers with 256 faces on either side, under rule 0 without the one side on the rim; under rule 1 also 128 on each of 4 edges.
const LAYERS: [&[Row]; 2] = [&[[3_840, 3_840, 768_000]], &[[4_608, 4_608, 921_600]]];
/// 128 faces in each of 96 slices, but for the 6 on the rim under rule 0.
const CHECKERED: [&[Row]; 2] = [
    &[[11_520, 11_520, 1_728_000]],
    &[[12_288, 12_288, 1_843_200]],
];
const FULL: [&[Row]; 2] = [&[[0; 3]], &[[6, 1_536, 153_900]]];

const WORKED: [Worked; 8] = [
    section("layers along x", |_, at| layers(0, at), LAYERS, [256; 2]),
    section("layers along y", |_, at| layers(1, at), LAYERS, [256; 2]),
    section("layers along z", |_, at| layers(2, at), LAYERS, [256; 2]),
    section("checkered", |_, at| checkered(at), CHECKERED, [128; 2]),
    section("full", |_, _| 1, FULL, [0, 1]),
    section("empty", |_, _| 0, [&[[0; 3]]; 2], [0; 2]),
    Worked {
        name: "one cell, all slots beyond it occupied",
        size: [1; 3],
        finish: |_, _| 1,
        rows: [&[[0; 3]], &[[6, 6, 900]]],
        in_slice: [0, 1],
    },
    // Layers and checkered show each other 64 faces, checkered shows the full section none and is shown 128.
    Worked {
        name: "layers along z, checkered and full in a row",
        size: [48, 16, 16],
        finish: |section, at| [layers(2, at), checkered(at), 1][section],
        rows: [
            &[
                [3_904, 3_904, 777_600],
                [11_584, 11_584, 1_737_600],
                [128, 128, 19_200],
            ],
            &[
                [4_544, 4_544, 905_600],
                [12_096, 12_096, 1_814_400],
                [133, 1_408, 147_450],
            ],
        ],
        in_slice: [256; 2],
    },
];

/// Full layers with gaps between them, finishes 1 and 2 alternating cell by cell.
fn layers(axis: usize, at: [usize; 3]) -> u16 {
    let finish = 1 + at.iter().sum::<usize>() % 2;
    if at[axis] % 2 == 0 { finish as u16 } else { 0 }
}

fn checkered(at: [usize; 3]) -> u16 {
    u16::from(at.iter().sum::<usize>() % 2 == 0)
}

impl Worked {
    fn stand(&self) -> Stand {
        let slot = |i: usize| (i, (self.finish)(i / 4_096, place(i % 4_096)));
        let slots: Vec<Slot> = (0..self.rows[0].len() * 4_096).map(slot).collect();
        let mut stand = Stand::of(Cell::default(), extent_of(self.size), &slots);
        stand.volume.generation = NOW;
        let sections = self.rows[0].len();
        // The other entries name a section whose last change is none of these.
        stand.storage.log.fill(sections as u32 - 1);
        stand.storage.log[(NOW - 1) as usize % sections] = 0;
        stand.storage.last[0] = NOW;
        stand
    }

    fn run(&self, check: &mut Check) -> Same {
        let stand = self.stand();
        check.tally.stand(self.rows[0].len());
        for (rule, rows) in self.rows.iter().enumerate() {
            let (whole, others) = jobs(stand.volume, rule as u32);
            for job in whole {
                let got = check.measure(&stand, &job)?;
                check.said(Kind::Rows, "rows", &got, &rows.concat())?;
            }
            let list = Section::of(&stand, 0, rule as u32).list();
            let most = slices(&list).into_iter().max().unwrap_or(0);
            check.said(
                Kind::Panels,
                "panels in a slice",
                &[most],
                &[self.in_slice[rule]],
            )?;
            for job in others {
                check.measure(&stand, &job)?;
            }
        }
        Ok(())
    }
}

/// Calls that measure all sections; then those that measure some or none, and refused ones.
fn jobs(v: Volume, rule: u32) -> (Vec<Job>, Vec<Job>) {
    let opening = Job::opening(v, 0, CARD, rule);
    let refresh = |mark: u64| Job {
        refresh: true,
        mark,
        ..opening
    };
    let bare = Card { length: 1, ..CARD };
    let mut others: Vec<Job> = (NOW - 2..=NOW + 1).map(refresh).collect();
    for job in [opening, refresh(NOW - 1)] {
        others.push(Job { short: true, ..job });
        others.push(Job { card: bare, ..job });
    }
    (vec![opening, refresh(0)], others)
}

pub fn run(check: &mut Check) -> Same {
    for worked in &WORKED {
        let told = |d: Difference| Difference(format!("{}: {}", worked.name, d.0));
        worked.run(check).map_err(told)?;
    }
    Ok(())
}
