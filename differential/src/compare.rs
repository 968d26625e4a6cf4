//! What is compared after a call: header, storage, digest, walks, panels.

use crate::counts::Kind;
use crate::fault::Fault;
use crate::ffi::Cell;
use crate::model;
use crate::ours;
use crate::pair::{Pair, RUST, Same, apart, equal};
use reference::Voxel;

/// Equal cells; without an early end, so that it runs at full width.
fn same_cells(ours: &[u16], rust: &[Voxel]) -> bool {
    let differing = ours.iter().zip(rust).fold(0, |d, (a, b)| d | (a ^ b.0));
    ours.len() == rust.len() && differing == 0
}

impl Pair {
    /// Everything but panels.
    pub fn compare_stand(&mut self) -> Same {
        self.header()?;
        self.lists()?;
        let mut got = ours::digest(self.volume, &self.storage.hashes);
        got.value ^= u64::from(self.faulty(Fault::Digest));
        let rust = self.theirs.0.digest();
        self.same(Kind::Digest, "digest", (got.code, got.value), (0, rust))?;
        self.feed()?;
        self.solids()
    }

    fn header(&mut self) -> Same {
        let v = self.volume;
        let rust = (
            self.theirs.origin(),
            self.theirs.chunks(),
            self.theirs.size(),
        );
        self.same(Kind::Header, "shape", (v.origin, v.chunks, v.size), rust)?;
        let got = (ours::origin(v), ours::chunks(v), ours::size(v));
        let codes = (got.0.code, got.1.code, got.2.code);
        self.same(Kind::Header, "codes", codes, (0, 0, 0))?;
        let shape = (got.0.cell, got.1.extent, got.2.extent);
        self.same(Kind::Header, "origin, chunks, size", shape, rust)?;
        let t = &self.theirs.0;
        let counts = [
            t.generation(),
            t.solid_count() as u64,
            t.chunk_count() as u64,
        ];
        self.same(
            Kind::Header,
            "generation, solid",
            [v.generation, v.solid],
            [counts[0], counts[1]],
        )?;
        let got = [
            ours::generation(v),
            ours::solid_count(v),
            ours::chunk_count(v),
        ];
        self.same(Kind::Header, "codes", got.map(|n| n.code), [0; 3])?;
        self.same(Kind::Header, "counts", got.map(|n| n.value), counts)?;
        let Some(rust) = self.rust("max", |t| t.max())? else {
            return Ok(());
        };
        let got = ours::max(v);
        self.same(Kind::Header, "max", (got.code, got.cell), (0, rust))
    }

    fn lists(&mut self) -> Same {
        let (s, t) = (&self.storage, self.theirs.stored());
        if !same_cells(&s.cells, t.cells) {
            let rust: Vec<u16> = t.cells.iter().map(|v| v.0).collect();
            return Err(apart("cells", &s.cells, RUST, &rust));
        }
        equal("hashes", &s.hashes, RUST, t.hashes)?;
        equal("versions", &s.versions, RUST, t.versions)?;
        equal("log", &s.log, RUST, t.log)?;
        equal("last changes", &s.last, RUST, t.last)?;
        (0..5).for_each(|_| self.counts.compared(Kind::List));
        Ok(())
    }

    /// All lags from 0 to one more than there are sections, and a mark ahead.
    fn feed(&mut self) -> Same {
        let now = self.volume.generation;
        for lag in 0..=self.storage.log.len() as u64 + 1 {
            match now.checked_sub(lag) {
                Some(mark) => self.since(mark)?,
                None => break,
            }
        }
        self.since(now + 1)
    }

    fn solids(&mut self) -> Same {
        let Some(rust) = self.rust("solids", |t| t.solids().collect::<Vec<_>>())? else {
            return Ok(());
        };
        let mut given: Vec<(Cell, u32)> = Vec::with_capacity(rust.len());
        let mut step = ours::solid_step(self.volume, &self.storage.cells, 0);
        let code = step.code;
        while step.given == 1 && given.len() <= rust.len() {
            given.push((step.cell, step.finish));
            step = ours::solid_step(self.volume, &self.storage.cells, step.next as usize);
        }
        if self.faulty(Fault::Solids) {
            given.pop();
        }
        self.same(Kind::Answer, "solid_step", code, 0)?;
        self.same_list(Kind::Solids, "walk over occupied cells", &given, &rust)
    }

    /// The panels of every section and of the whole, under both rules.
    pub fn compare_panels(&mut self) -> Same {
        self.turn += 1;
        let sections = model::sections(self.volume);
        for rule in 0..2 {
            for chunk in 0..sections {
                self.panels(Some(chunk), rule)?;
            }
            self.panels(None, rule)?;
        }
        let chunk = self.turn % sections;
        self.slices(chunk, (self.turn / sections) as u32 % 2)
    }
}
