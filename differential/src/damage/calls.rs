//! The damaged calls, each held to the model.

use super::Hurt;
use super::edges::Fill;
use super::forge::{some_cell, some_chunk, some_number};
use crate::ffi::{Cell, Extent, Slice, Volume};
use crate::model;
use crate::ours::{self, Storage};
use crate::pair::Same;
use crate::rng::Rng;
use crate::trial::tally::count;

const DIRT: u16 = 0xd7d7;
const LIST_DIRT: i32 = 0x5e5e_5e5e;

impl Hurt {
    pub fn set(&mut self, rng: &mut Rng) -> Same {
        let (c, finish) = (some_cell(self.v, rng), rng.below(4) as u16);
        let code = model::set_code(self.v, &self.s, c, finish);
        let (mut after, mut stored) = (self.v, self.s.clone());
        let changed = code == 0 && model::set(&mut after, &mut stored, c, finish);
        if rng.chance(50) {
            let mut v = self.v;
            let got = ours::set_lent(&mut v, &mut self.s, c, finish);
            self.number("set lent", got, code, u64::from(changed))?;
            return self.kept("set lent", v == after && self.s == stored);
        }
        let got = ours::set(self.v, &mut self.s, c, finish);
        self.hold("set", got.code, code, got.changed == 0)?;
        let equal = (got.changed, got.volume) == (u64::from(changed), after);
        self.kept("set", equal && self.s == stored)
    }

    pub fn fill(&mut self, rng: &mut Rng) -> Same {
        let (a, b) = (some_cell(self.v, rng), some_cell(self.v, rng));
        let finish = rng.below(4) as u16;
        let code = model::fill_code(self.v, &self.s, a, b);
        self.fill_box("fill", (a, b, finish), code)
    }

    /// A fill, held to a code; where it is 0, to the model's sets.
    pub fn fill_box(&mut self, what: &str, (a, b, finish): Fill, code: u32) -> Same {
        if model::lies(self.v, a, b).misses() {
            count(&mut self.tally.beside, code);
        }
        let (mut after, mut stored) = (self.v, self.s.clone());
        let mut changed = 0;
        if code == 0 {
            for c in model::box_cells(self.v, a, b) {
                changed += u64::from(model::set(&mut after, &mut stored, c, finish));
            }
        }
        let got = ours::fill(self.v, &mut self.s, a, b, finish);
        self.hold(what, got.code, code, got.changed == 0)?;
        let equal = (got.changed, got.volume) == (changed, after);
        self.kept(what, equal && self.s == stored)
    }

    /// Opening with lists of any length: 1, 2, 4; and the header alone: 1, 2.
    pub fn open(&mut self) -> Same {
        let (origin, size) = (self.v.origin, self.v.size);
        let (got, wanted) = (ours::header(origin, size), model::header(origin, size));
        self.hold("header", got.code, wanted.code, got == wanted)?;
        self.kept("header", got == wanted)?;
        let mut code = model::open_code(origin, size);
        if code == 0 {
            code = model::storage_code(model::opened(origin, size), &self.s);
        }
        let before = self.s.clone();
        let got = ours::open(origin, size, &mut self.s);
        self.hold("open", got.code, code, got.volume == Volume::default())?;
        if code != 0 {
            return self.kept("refused open", self.s == before);
        }
        let zeros = self.s == Storage::zeros(self.s.hashes.len());
        let header = got.volume == model::opened(origin, size);
        self.kept("open", zeros && header)
    }

    pub fn reads(&mut self, rng: &mut Rng) -> Same {
        let v = self.v;
        let c = some_cell(v, rng);
        let chunk = some_chunk(rng);
        let code = model::header_code(v);
        self.number("generation", ours::generation(v), code, v.generation)?;
        self.number("solid_count", ours::solid_count(v), code, v.solid)?;
        let inside = code == 0 && model::inside(v, c);
        self.number("contains", ours::contains(v, c), code, u64::from(inside))?;
        let place = [ours::origin(v), ours::max(v), ours::clamp(v, c)];
        for got in place {
            self.hold(
                "origin, max, clamp",
                got.code,
                code,
                got.cell == Cell::default(),
            )?;
        }
        for got in [ours::chunks(v), ours::size(v)] {
            self.hold(
                "chunks, size",
                got.code,
                code,
                got.extent == Extent::default(),
            )?;
        }
        self.places(c, chunk, inside, code)
    }

    fn places(&mut self, c: Cell, chunk: usize, inside: bool, code: u32) -> Same {
        let v = self.v;
        let outside = if code == 0 && !inside { 5 } else { code };
        let slot = if inside {
            model::slot(v, c).unwrap_or(0)
        } else {
            0
        };
        self.number(
            "chunk_of",
            ours::chunk_of(v, c),
            outside,
            (slot / 4_096) as u64,
        )?;
        let seven = model::section_code(v, chunk);
        let got = ours::chunk_origin(v, chunk);
        self.hold("chunk_origin", got.code, seven, got.cell == Cell::default())?;
        let want = match seven {
            0 => model::want(v, Some(chunk)) as u64,
            _ => 0,
        };
        self.number("chunk_slots", ours::chunk_slots(v, chunk), seven, want)?;
        self.list_reads(c, chunk, seven)
    }

    /// Calls that read one list: 3, 4, then their own.
    fn list_reads(&mut self, c: Cell, chunk: usize, seven: u32) -> Same {
        let v = self.v;
        let code = model::list_code(v, 4_096, self.s.cells.len());
        let slot = if code == 0 { model::slot(v, c) } else { None };
        let finish = slot.map_or(0, |i| u64::from(self.s.cells[i]));
        let own = if code == 0 && slot.is_none() { 5 } else { code };
        self.number("get", ours::get(v, &self.s.cells, c), own, finish)?;
        let solid = u64::from(finish != 0);
        self.number("is_solid", ours::is_solid(v, &self.s.cells, c), code, solid)?;
        let got = ours::solid_step(v, &self.s.cells, chunk);
        self.hold(
            "solid_step",
            got.code,
            code,
            (got.given, got.next) == (0, 0),
        )?;
        if code == 0 {
            self.walk_solids()?;
        }
        self.entries(chunk, seven)
    }

    fn entries(&mut self, chunk: usize, seven: u32) -> Same {
        let v = self.v;
        let lengths = [self.s.hashes.len(), self.s.versions.len()];
        let [hashes, versions] = lengths.map(|len| model::list_code(v, 1, len));
        let got = ours::digest(v, &self.s.hashes);
        self.number("digest", got, hashes, got.value)?;
        let got = ours::chunk_hash(v, &self.s.hashes, chunk);
        let own = if hashes == 0 { seven } else { hashes };
        let value = self.s.hashes.get(chunk).copied().unwrap_or(0);
        self.number("chunk_hash", got, own, value)?;
        let got = ours::chunk_version(v, &self.s.versions, chunk);
        let own = if versions == 0 { seven } else { versions };
        let value = self.s.versions.get(chunk).copied().map_or(0, u64::from);
        self.number("chunk_version", got, own, value)
    }

    pub fn feed(&mut self, rng: &mut Rng) -> Same {
        let now = self.v.generation;
        let n = self.s.log.len() as u64;
        let mark = match rng.below(6) {
            0 => now.saturating_add(1),
            1 => now.saturating_sub(n + 1),
            2 => now.saturating_sub(n),
            3 => rng.next(),
            _ => now.saturating_sub(rng.below(n + 3)),
        };
        let code = model::feed_code(self.v, self.s.log.len(), self.s.last.len(), mark);
        let (log, last) = (&self.s.log, &self.s.last);
        let start = ours::changed_since(self.v, log, last, mark);
        let step = ours::changed_step(self.v, log, last, mark);
        self.number("changed_since", start, code, mark)?;
        let rest = (step.given, step.chunk, step.next) == (0, 0, 0);
        self.hold("changed_step", step.code, code, rest)?;
        if code == 0 {
            return self.walk_changes(mark);
        }
        Ok(())
    }

    fn walk_changes(&mut self, mark: u64) -> Same {
        let (v, log, last) = (self.v, &self.s.log, &self.s.last);
        let wanted = model::changed(v, log, last, mark);
        let mut given = Vec::new();
        let mut step = ours::changed_step(v, log, last, mark);
        while step.given == 1 && given.len() <= wanted.len() {
            given.push(step.chunk);
            step = ours::changed_step(v, log, last, step.next);
        }
        self.kept("walk over changes", given == wanted)
    }

    fn walk_solids(&mut self) -> Same {
        let wanted = model::solids(self.v, &self.s.cells);
        let mut given = Vec::new();
        let mut step = ours::solid_step(self.v, &self.s.cells, 0);
        while step.given == 1 && given.len() <= wanted.len() {
            given.push((step.cell, step.finish));
            step = ours::solid_step(self.v, &self.s.cells, step.next as usize);
        }
        self.kept("walk over occupied cells", given == wanted)
    }

    pub fn mesh(&mut self, rng: &mut Rng) -> Same {
        let part = rng.chance(70).then(|| some_chunk(rng));
        let rule = some_number(2, rng);
        let mut mask = vec![DIRT; rng.pick(&[0, 1, 15, 16, 64, 255, 256, 300, 4_096])];
        let mut list = vec![LIST_DIRT; rng.pick(&[0, 7, 8, 48, 400])];
        let mut code = model::mesh_code(self.v, self.s.cells.len(), part, mask.len());
        if rule > 1 {
            code = 100;
        }
        let (v, cells) = (self.v, &self.s.cells);
        let got = match part {
            Some(chunk) => ours::chunk_faces(v, cells, chunk, rule, &mut mask, &mut list),
            None => ours::faces(v, cells, rule, &mut mask, &mut list),
        };
        if code == 0 && got.value > list.len() as u64 / 8 {
            code = 11;
        }
        self.hold("panels", got.code, code, code == 11 || got.value == 0)?;
        if code != 0 && code != 11 {
            let kept = mask.iter().all(|n| *n == DIRT) && list.iter().all(|n| *n == LIST_DIRT);
            return self.kept("refused panels", kept);
        }
        self.beyond_is_nothing(part, rule, &mask, &list)?;
        let want = model::want(self.v, part);
        let room = (got.value as usize).min(list.len() / 8) * 8;
        let mask = mask[..want].iter().all(|n| *n == 0) && mask[want..].iter().all(|n| *n == DIRT);
        self.kept(
            "panels",
            mask && list[room..].iter().all(|n| *n == LIST_DIRT),
        )
    }

    /// What the slots beyond the size hold makes no difference to panels.
    fn beyond_is_nothing(
        &mut self,
        part: Option<usize>,
        rule: u32,
        mask: &[u16],
        list: &[i32],
    ) -> Same {
        let cells = model::cut(self.v, &self.s.cells);
        let mut mask_after = vec![DIRT; mask.len()];
        let mut list_after = vec![LIST_DIRT; list.len()];
        let (m, l) = (&mut mask_after, &mut list_after);
        match part {
            Some(chunk) => ours::chunk_faces(self.v, &cells, chunk, rule, m, l),
            None => ours::faces(self.v, &cells, rule, m, l),
        };
        let same = mask_after == mask && list_after == list;
        self.kept("slots beyond the size", same)
    }

    pub fn slice(&mut self, rng: &mut Rng) -> Same {
        let chunk = some_chunk(rng);
        let (side, rule) = (some_number(6, rng), some_number(2, rng));
        let mut mask = vec![DIRT; rng.pick(&[0, 1, 16, 255, 256])];
        let mut code = model::mesh_code(self.v, self.s.cells.len(), Some(chunk), mask.len());
        if side > 5 || rule > 1 {
            code = 100;
        }
        let (v, cells) = (self.v, &self.s.cells);
        let depth = rng.below(18) as usize;
        let got = ours::chunk_slice(v, cells, chunk, side, depth, rule, &mut mask);
        let rest = got.slice == Slice::default();
        self.hold("chunk_slice", got.code, code, rest)?;
        let kept = if code == 0 {
            model::want(self.v, Some(chunk))
        } else {
            0
        };
        self.kept("chunk_slice", mask[kept..].iter().all(|n| *n == DIRT))
    }

    /// A forged slice: it ends, and clears the slots of the panel that it gives.
    pub fn claim(&mut self, rng: &mut Rng) -> Same {
        let slice = Slice {
            cell: some_cell(self.v, rng),
            side: some_number(6, rng),
            width: rng.pick(&[0, 1, 2, 16, 256, u64::MAX, 1 << 32]),
            height: rng.pick(&[0, 1, 2, 16, u64::MAX, 1 << 32]),
        };
        let mut mask: Vec<u16> = (0..rng.pick(&[0, 1, 16, 256]))
            .map(|_| rng.below(3) as u16)
            .collect();
        let before = mask.clone();
        let from = rng.pick(&[0, 1, 15, 16, 255, 256, usize::MAX]);
        let got = ours::claim(slice, &mut mask, from);
        let code = if slice.side > 5 { 100 } else { 0 };
        self.hold("claim", got.code, code, got.given == 0)?;
        let cleared = mask.iter().zip(&before).filter(|(a, b)| a != b).count() as u64;
        let zeros = mask.iter().zip(&before).all(|(a, b)| a == b || *a == 0);
        let e = got.extent;
        let faces = if got.given == 1 {
            model::merged(e).unwrap_or(0)
        } else {
            0
        };
        self.kept("claim", zeros && cleared == faces)
    }
}
