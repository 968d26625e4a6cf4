//! One random stand: stored, its form loaded, and damaged in every way.

use super::check::Check;
use super::encoder::Form;
use super::fault::Ours;
use super::harm::{Good, HARMS, Harm};
use super::loader;
use super::tally::{Part, Tallies};
use crate::calls::{Call, list};
use crate::damage::forge;
use crate::ffi::{Cell, Extent, Volume};
use crate::model;
use crate::ours::{self, Storage};
use crate::pair::{Difference, Same};
use crate::rng::Rng;
use crate::tiers::TIERS;

/// The longest form, in cells, that is damaged.
const MOST: usize = 600;
/// Sections up to which lists are lent that fit a damaged head.
const FITTED: usize = 64;

pub struct Case {
    /// The calls by which the stand is reached.
    pub calls: Vec<Call>,
    seed: u64,
    number: u64,
}

impl Case {
    /// Most stands have at most 64 cells, one in ten up to 8 sections, a few up to 64.
    pub fn make(seed: u64, number: u64) -> Self {
        let rng = &mut Rng::of(seed, 20, number);
        let tier = match number % 1_000 {
            0 => 2,
            n if n % 10 == 0 => 1,
            _ => 0,
        };
        let count = 1 + rng.below(30) as usize;
        Self {
            calls: list(TIERS[tier].mix, count, rng),
            seed,
            number,
        }
    }

    /// The same case on another stand.
    pub fn with(&self, calls: &[Call]) -> Self {
        Self {
            calls: calls.to_vec(),
            ..*self
        }
    }

    pub fn run(&self, ours: Ours) -> (Tallies, Option<Difference>) {
        let mut check = Check::new(ours, Part::Stored);
        let same = self.all(&mut check);
        (check.tallies, same.err())
    }

    fn all(&self, check: &mut Check) -> Same {
        let rng = &mut Rng::of(self.seed, 21, self.number);
        let (v, s) = reached(&self.calls);
        let any = any_contents(v, &s, rng);
        check.part = Part::Stored;
        let digest = Form::of(v, &s.cells).digest();
        check.same("digest", ours::digest(v, &s.hashes).value, digest)?;
        stores(check, v, &s.cells, rng)?;
        stores(check, any.0, &any.1, rng)?;
        refused_stores(check, v, &s.cells, rng)?;
        let noise = Storage::any(s.hashes.len(), rng);
        let goods = [(v, &s.cells), (any.0, &any.1)].map(|(v, c)| Good::of(Form::of(v, c)));
        check.part = Part::Loaded;
        for good in &goods {
            loads(check, good, &noise, rng)?;
        }
        check.part = Part::Damaged;
        let short = goods.iter().rev().find(|g| g.form.records.len() <= MOST);
        short.map_or(Ok(()), |good| damaged(check, good, &noise, rng))
    }
}

/// The stand that calls reach on our side, from one of a single cell.
fn reached(calls: &[Call]) -> (Volume, Storage) {
    let size = Extent { x: 1, y: 1, z: 1 };
    let mut s = Storage::zeros(1);
    let mut v = ours::open(Cell::default(), size, &mut s).volume;
    for call in calls {
        match *call {
            Call::Open(origin, size) => {
                let mut lists = Storage::dirty(ours::sections_of(size));
                let opened = ours::open(origin, size, &mut lists);
                if opened.code == 0 {
                    (v, s) = (opened.volume, lists);
                }
            }
            Call::Set(cell, finish) => v = ours::set(v, &mut s, cell, finish).volume,
            Call::SetLent(cell, finish) => {
                ours::set_lent(&mut v, &mut s, cell, finish);
            }
            Call::Fill(from, to, finish) => v = ours::fill(v, &mut s, from, to, finish).volume,
            _ => {}
        }
    }
    (v, s)
}

/// The stand's shape with any generation and count, and cells of any contents, slots beyond the size among them.
fn any_contents(v: Volume, s: &Storage, rng: &mut Rng) -> (Volume, Vec<u16>) {
    let (generation, solid) = (rng.next(), rng.next());
    let v = Volume {
        generation,
        solid: rng.pick(&[0, 1, solid]),
        ..v
    };
    let mut cells = s.cells.clone();
    match rng.below(4) {
        0 => cells.iter_mut().for_each(|c| *c = rng.next() as u16),
        1 => cells.iter_mut().for_each(|c| *c = rng.below(2) as u16),
        _ => {
            for _ in 0..rng.below(200) {
                let at = rng.below(cells.len() as u64) as usize;
                let any = rng.next() as u16;
                cells[at] = rng.pick(&[0, 1, 65_535, any]);
            }
        }
    }
    (v, cells)
}

/// Into no output, one any bytes short, one byte short, just long enough, longer.
fn stores(check: &mut Check, v: Volume, cells: &[u16], rng: &mut Rng) -> Same {
    let less = rng.below(1 + 34 + 7 * v.solid.min(100)) as i64;
    let more = 1 + rng.below(40) as i64;
    check.stores(v, cells, &[i64::MIN / 2, -less, -1, 0, more])
}

/// Headers that opening would not give, cells of other lengths, both: 3 and 4, whatever the output.
fn refused_stores(check: &mut Check, v: Volume, cells: &[u16], rng: &mut Rng) -> Same {
    for turn in 0..6 {
        let (mut v, mut cells) = (v, cells.to_vec());
        if turn % 3 != 0 {
            forge::damage_header(&mut v, rng);
        }
        if turn % 3 != 1 {
            let n = cells.len();
            cells.resize(rng.pick(&[0, n - 1, n + 1, n * 2, n - 4_096]), 1);
        }
        // Where the stand is refused these are outputs of 0, 33, 34 and 400 bytes.
        check.stores(v, &cells, &[0, 33, 34, 400])?;
    }
    Ok(())
}

/// Into lists that hold anything, and into lists of another length.
fn loads(check: &mut Check, good: &Good, noise: &Storage, rng: &mut Rng) -> Same {
    let code = check.load(&good.bytes, noise)?;
    check.same("load of what was stored", code, 0)?;
    let code = check.load(&good.bytes, &other_lengths(noise, rng))?;
    check.same("load into other lists", code, 4)
}

/// One list of another length, or all of them empty.
fn other_lengths(lists: &Storage, rng: &mut Rng) -> Storage {
    let mut s = lists.clone();
    let n = s.hashes.len();
    let entries = rng.pick(&[0, n - 1, n + 1, n * 2]);
    match rng.below(6) {
        0 => s.cells.resize(entries * 4_096, 1),
        1 => s.cells.resize(rng.pick(&[n * 4_096 - 1, n * 4_096 + 1]), 1),
        2 => s.hashes.resize(entries, 1),
        3 => s.versions.resize(entries, 1),
        4 => s.log.resize(entries, 1),
        _ => s.last.resize(entries, 1),
    }
    if rng.chance(15) {
        return Storage::default();
    }
    s
}

/// Each kind of damage once.
fn damaged(check: &mut Check, good: &Good, noise: &Storage, rng: &mut Rng) -> Same {
    for harm in &HARMS {
        hurt(check, harm, good, noise, rng)?;
    }
    Ok(())
}

fn hurt(check: &mut Check, harm: &Harm, good: &Good, noise: &Storage, rng: &mut Rng) -> Same {
    let Some(hurt) = (harm.make)(good, rng) else {
        return Ok(());
    };
    let lists = match rng.below(20) {
        0..3 => Some(other_lengths(noise, rng)),
        3..6 => fitted(&hurt.bytes),
        _ => None,
    };
    let lists = lists.as_ref();
    let code = check.load(&hurt.bytes, lists.unwrap_or(noise))?;
    check.tallies.harmed(harm.name, hurt.retargeted, code);
    match harm.code {
        Some(wanted) if lists.is_none() => check.same(harm.name, code, wanted),
        _ => Ok(()),
    }
}

/// Lists that fit the size that a form stores.
fn fitted(form: &[u8]) -> Option<Storage> {
    let (origin, size) = loader::head(form)?;
    let opens = model::open_code(origin, size) == 0;
    let sections = ours::sections_of(size);
    (opens && sections <= FITTED).then(|| Storage::dirty(sections))
}
