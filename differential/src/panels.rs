//! Panels compared: lists just long enough, too short, and gathered slice by slice.

use crate::counts::Kind;
use crate::fault::Fault;
use crate::ffi::Number;
use crate::model;
use crate::ours;
use crate::pair::{Difference, Pair, Same};
use crate::theirs;

const MASK_DIRT: u16 = 0xd6d6;
const LIST_DIRT: i32 = 0x5d5d_5d5d;

impl Pair {
    /// Lends a mask and a list that hold anything, and meshes.
    fn mesh(&mut self, part: Option<usize>, rule: u32, mask: usize, list: usize) -> Number {
        self.mask.clear();
        self.mask.resize(mask, MASK_DIRT);
        self.list.clear();
        self.list.resize(list, LIST_DIRT);
        let (v, cells) = (self.volume, &self.storage.cells);
        let (mask, list) = (&mut self.mask, &mut self.list);
        let got = match part {
            Some(chunk) => ours::chunk_faces(v, cells, chunk, rule, mask, list),
            None => ours::faces(v, cells, rule, mask, list),
        };
        if let Some(fault) = self.fault.filter(|_| self.tripped) {
            fault.spoil_mesh(got.value as usize, mask, list);
        }
        got
    }

    /// The panels of a part: all of them, all but one, and with a mask too short.
    pub fn panels(&mut self, part: Option<usize>, rule: u32) -> Same {
        let function = if part.is_some() {
            "chunk_faces"
        } else {
            "faces"
        };
        let Some(quads) = self.rust(function, |t| t.panels(part, rule))? else {
            return Ok(());
        };
        let rust: Vec<[i32; 8]> = quads.iter().map(theirs::panel).collect();
        let all = rust.len();
        let want = model::want(self.volume, part);
        let over = self.turn % 9;
        let got = self.mesh(part, rule, want + over % 3, all * 8 + over);
        self.same(
            Kind::Answer,
            function,
            got,
            Number {
                code: 0,
                value: all as u64,
            },
        )?;
        self.written(function, want, &rust)?;
        self.too_short(part, rule, &rust)
    }

    /// A list with room for some of the panels, then a mask with one slot too few.
    fn too_short(&mut self, part: Option<usize>, rule: u32, rust: &[[i32; 8]]) -> Same {
        let all = rust.len();
        let want = model::want(self.volume, part);
        let over = self.turn % 8;
        if let Some(short) = all.checked_sub(1 + self.turn % all.max(1)) {
            let got = self.mesh(part, rule, want + 1, short * 8 + over);
            let wanted = Number {
                code: 11,
                value: all as u64,
            };
            self.same(Kind::Answer, "list too short", got, wanted)?;
            self.written("list too short", want, &rust[..short])?;
        }
        let got = self.mesh(part, rule, want - 1, all * 8);
        self.same(
            Kind::Answer,
            "mask too short",
            got,
            Number { code: 10, value: 0 },
        )?;
        self.untouched("a mask too short: mask and list keep")
    }

    /// The panels written, what follows them kept, the mask's first `want` slots 0 and the rest kept.
    fn written(&mut self, what: &str, want: usize, rust: &[[i32; 8]]) -> Same {
        let (panels, rest) = self.list.split_at(rust.len() * 8);
        let apart = panels.chunks(8).zip(rust).position(|(a, b)| a != b);
        let kept = rest.iter().all(|n| *n == LIST_DIRT);
        let (first, beyond) = self.mask.split_at(want);
        let cleared = first.iter().all(|n| *n == 0);
        let beyond = beyond.iter().all(|n| *n == MASK_DIRT);
        if let Some(i) = apart {
            let ours = &panels[i * 8..i * 8 + 8];
            let text = format!("{what}, panel {i}: ours {ours:?}, Rust {:?}", rust[i]);
            return Err(Difference(text));
        }
        self.counts.compared(Kind::Panels);
        self.holds("the list after the last panel keeps", kept)?;
        self.holds("the mask's first slots are 0", cleared)?;
        self.holds("the mask's other slots keep", beyond)
    }

    fn untouched(&mut self, what: &str) -> Same {
        let mask = self.mask.iter().all(|n| *n == MASK_DIRT);
        let list = self.list.iter().all(|n| *n == LIST_DIRT);
        self.holds(what, mask && list)
    }

    /// A section that is not there: the Rust is silent, ours refuses by 7.
    pub fn no_section(&mut self, chunk: usize) -> Same {
        let Some(quads) = self.rust("chunk_faces", |t| t.panels(Some(chunk), 1))? else {
            return Ok(());
        };
        self.same(Kind::Panels, "no such section", 0, quads.len())?;
        let got = self.mesh(Some(chunk), 1, 256, 64);
        self.same(
            Kind::Answer,
            "chunk_faces",
            got,
            Number { code: 7, value: 0 },
        )?;
        self.untouched("no such section: mask and list keep")
    }

    /// The mask slots that a section wants.
    pub fn slots(&mut self, chunk: usize) -> Same {
        let v = self.volume;
        let wanted = (chunk < model::sections(v)).then(|| model::want(v, Some(chunk)) as u64);
        let mut got = ours::chunk_slots(v, chunk);
        got.value ^= u64::from(self.faulty(Fault::Slots));
        self.answer("chunk_slots", got, wanted, 7)
    }

    /// The panels of a section gathered by chunk_slice and claim, sides and slices in order.
    pub fn slices(&mut self, chunk: usize, rule: u32) -> Same {
        self.slots(chunk)?;
        let Some(quads) = self.rust("chunk_faces", |t| t.panels(Some(chunk), rule))? else {
            return Ok(());
        };
        let rust: Vec<[i32; 8]> = quads.iter().map(theirs::panel).collect();
        let cells = model::part_cells(self.volume, Some(chunk));
        self.mask.clear();
        self.mask
            .resize(model::want(self.volume, Some(chunk)), MASK_DIRT);
        let mut gathered = Vec::new();
        for side in 0..6 {
            // One slice past the depth has no slots.
            for slice in 0..=cells[side as usize / 2] {
                self.gather(chunk, side, slice, rule, &mut gathered)?;
            }
        }
        if self.faulty(Fault::Claim) {
            gathered.pop();
        }
        let cleared = self.mask.iter().all(|n| *n == 0);
        self.holds("the mask is 0 after all claims", cleared)?;
        self.same_list(Kind::Slices, "chunk_slice and claim", &gathered, &rust)
    }

    fn gather(
        &mut self,
        chunk: usize,
        side: u32,
        slice: usize,
        rule: u32,
        gathered: &mut Vec<[i32; 8]>,
    ) -> Same {
        let (v, cells) = (self.volume, &self.storage.cells);
        let laid = ours::chunk_slice(v, cells, chunk, side, slice, rule, &mut self.mask);
        self.same(Kind::Answer, "chunk_slice", laid.code, 0)?;
        let mut step = ours::claim(laid.slice, &mut self.mask, 0);
        while step.given == 1 {
            let (c, e) = (step.cell, step.extent);
            let (side, finish) = (step.side as i32, step.finish as i32);
            gathered.push([c.x, c.y, c.z, side, finish, e.x, e.y, e.z]);
            step = ours::claim(laid.slice, &mut self.mask, step.next as usize);
        }
        self.same(Kind::Answer, "claim", step.code, 0)
    }
}
