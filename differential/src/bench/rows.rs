//! The rows of the benchmark's table.

use super::stand::{Both, EDGE, MIDDLE, at, checkered, ground, in_middle, scattered, wall};
use super::{Row, measure};
use crate::ffi::Cell;
use crate::ours;
use crate::rng::Rng;
use crate::theirs;
use reference::{Beyond, Voxel};
use std::hint::black_box;

/// Cells in no order, each once, with finishes 0 to 3.
fn some_cells(rng: &mut Rng) -> Vec<(Cell, u16)> {
    let mut places: Vec<i32> = (0..EDGE * EDGE * EDGE).collect();
    for n in 0..4_096 {
        let other = rng.between(n, places.len() as i64 - 1);
        places.swap(n as usize, other as usize);
    }
    places
        .iter()
        .take(4_096)
        .map(|n| {
            (
                at(n % EDGE, n / EDGE % EDGE, n / EDGE / EDGE),
                rng.below(4) as u16,
            )
        })
        .collect()
}

pub fn edits(show: &mut impl FnMut(Row)) {
    let mut both = Both::open();
    let some = some_cells(&mut Rng::of(1, 0, 0));
    let (by_value, lent) = (Both::set_ours, Both::set_lent);
    show(sets("set (another finish)", 1, by_value, &some, &mut both));
    show(sets("set (the same finish)", 0, by_value, &some, &mut both));
    show(sets("set lent (another)", 1, lent, &some, &mut both));
    show(sets("set lent (the same)", 0, lent, &some, &mut both));
    fills(&mut both, show);
}

/// Sets of the same cells again and again, the finish moved on by `step` each turn.
fn sets(
    name: &'static str,
    step: u16,
    set: fn(&mut Both, Cell, u16) -> u64,
    some: &[(Cell, u16)],
    both: &mut Both,
) -> Row {
    let (mut turn, mut back) = (0u16, 0u16);
    measure(
        name,
        1.0,
        some.len(),
        both,
        |b| {
            turn = (turn + step) % 4;
            for &(c, f) in some {
                black_box(set(b, black_box(c), f ^ turn));
            }
        },
        |b| {
            back = (back + step) % 4;
            for &(c, f) in some {
                black_box(b.rust.set(black_box(c), f ^ back));
            }
        },
    )
}

fn fills(both: &mut Both, show: &mut impl FnMut(Row)) {
    let mut turn = 0u16;
    let mut back = 0u16;
    let (low, high) = (at(0, 0, 0), at(EDGE - 1, EDGE - 1, EDGE - 1));
    show(measure(
        "fill (all, all change)",
        0.8,
        1,
        both,
        |b| {
            turn = 3 - turn.max(1);
            black_box(b.fill_ours(low, high, turn));
        },
        |b| {
            back = 3 - back.max(1);
            black_box(b.rust.fill(low, high, back));
        },
    ));
    show(measure(
        "fill (all, none changes)",
        0.8,
        1,
        both,
        |b| {
            black_box(b.fill_ours(low, high, turn));
        },
        |b| {
            black_box(b.rust.fill(low, high, back));
        },
    ));
}

pub fn reads(show: &mut impl FnMut(Row)) {
    let mut both = Both::laid(ground);
    let some = some_cells(&mut Rng::of(2, 0, 0));
    show(measure(
        "get (random cells)",
        1.0,
        some.len(),
        &mut both,
        |b| {
            for &(c, _) in &some {
                black_box(ours::get(b.volume, &b.storage.cells, black_box(c)));
            }
        },
        |b| {
            for &(c, _) in &some {
                black_box(b.rust.0.get(black_box(theirs::cell(c))));
            }
        },
    ));
    show(measure(
        "digest (27 sections)",
        1.0,
        1,
        &mut both,
        |b| {
            black_box(ours::digest(b.volume, &b.storage.hashes));
        },
        |b| {
            black_box(b.rust.0.digest());
        },
    ));
    show(walks(&mut both));
}

fn walks(both: &mut Both) -> Row {
    // One change in each section, so that the walk gives all of them.
    for chunk in 0..27 {
        let c = ours::chunk_origin(both.volume, chunk).cell;
        both.set(c, 9);
    }
    measure(
        "changed since (27 given)",
        1.0,
        1,
        both,
        |b| {
            black_box(walk_ours(b));
        },
        |b| {
            let mark = b.rust.0.generation() - 27;
            let walk = b.rust.0.changed_since(black_box(mark)).expect("in reach");
            black_box(walk.sum::<usize>());
        },
    )
}

fn walk_ours(b: &Both) -> u64 {
    let (log, last) = (&b.storage.log, &b.storage.last);
    let mark = black_box(b.volume.generation - 27);
    let mut next = ours::changed_since(b.volume, log, last, mark).value;
    let mut sum = 0;
    loop {
        let step = ours::changed_step(b.volume, log, last, next);
        if step.given == 0 {
            return sum;
        }
        sum += step.chunk;
        next = step.next;
    }
}

pub fn sections(show: &mut impl FnMut(Row)) {
    let mut one = |name, goal, mut both: Both| show(section_row(name, goal, &mut both));
    one("chunk_faces empty", 0.08, Both::open());
    one(
        "chunk_faces solid",
        0.08,
        Both::laid(in_middle(|_, _, _| 1)),
    );
    one("chunk_faces all hidden", 0.08, Both::laid(|_| 1));
    one("chunk_faces random", 0.2, Both::laid(in_middle(scattered)));
    one(
        "chunk_faces checkered",
        0.28,
        Both::laid(in_middle(checkered)),
    );
    one("chunk_faces wall", 0.1, Both::laid(in_middle(wall)));
    one("chunk_faces ground", 0.1, Both::laid(ground));
    let mut both = Both::laid(in_middle(checkered));
    show(kept_row("checkered, list kept", 0.28, &mut both));
}

fn mesh_ours(b: &mut Both) {
    black_box(ours::chunk_faces(
        b.volume,
        &b.storage.cells,
        black_box(MIDDLE),
        1,
        &mut b.mask,
        &mut b.list,
    ));
}

fn section_row(name: &'static str, goal: f64, both: &mut Both) -> Row {
    measure(name, goal, 1, both, mesh_ours, |b| {
        let mut quads = Vec::new();
        reference::chunk_faces(&b.rust.0, black_box(MIDDLE), Beyond::Empty, &mut quads);
        black_box(&quads);
    })
}

fn kept_row(name: &'static str, goal: f64, both: &mut Both) -> Row {
    let mut quads = Vec::new();
    measure(name, goal, 1, both, mesh_ours, |b| {
        quads.clear();
        reference::chunk_faces(&b.rust.0, black_box(MIDDLE), Beyond::Empty, &mut quads);
        black_box(&quads);
    })
}

pub fn wholes(show: &mut impl FnMut(Row)) {
    let mut one = |name, mut both: Both| show(whole_row(name, &mut both));
    one("faces ground", Both::laid(ground));
    one("faces random", Both::laid(|c| scattered(c.x, c.y, c.z)));
    one("faces solid", Both::laid(|_| Voxel::EMPTY.0 + 1));
}

fn whole_row(name: &'static str, both: &mut Both) -> Row {
    measure(
        name,
        0.33,
        1,
        both,
        |b| {
            black_box(ours::faces(
                b.volume,
                &b.storage.cells,
                black_box(1),
                &mut b.mask,
                &mut b.list,
            ));
        },
        |b| {
            black_box(reference::faces(&b.rust.0, black_box(Beyond::Empty)));
        },
    )
}
