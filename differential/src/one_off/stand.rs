//! One stand on our side, and calls on it, each held to the number that it must answer.

use super::check::Check;
use super::step::Step;
use crate::calls::Call;
use crate::ffi::{Cell, Extent, Number, Opened, Volume};
use crate::model;
use crate::ours::{self, Storage};
use crate::pair::{Difference, Same};
use crate::rng::Rng;

pub struct Stand {
    pub volume: Volume,
    pub storage: Storage,
}

impl Stand {
    /// A fresh stand in lists that hold anything.
    pub fn opened(
        check: &mut Check,
        origin: Cell,
        size: Extent,
        lists: Storage,
    ) -> Result<Self, Difference> {
        let mut storage = lists;
        let Opened { code, volume } = ours::open(origin, size, &mut storage);
        check.answer("open", code, 0)?;
        Ok(Self { volume, storage })
    }

    /// Stored, and its form loaded into lists that hold anything.
    pub fn reloaded(&self, check: &mut Check, lists: Storage) -> Result<Self, Difference> {
        let form = self.form(check)?;
        let mut storage = lists;
        let Opened { code, volume } = ours::load(&form, &mut storage);
        check.answer("load", code, 0)?;
        check.tally.loaded(check.list);
        Ok(Self { volume, storage })
    }

    /// The bytes that a store writes.
    fn form(&self, check: &mut Check) -> Result<Vec<u8>, Difference> {
        let length = ours::stored_length(self.volume, &self.storage.cells);
        check.answer("stored_length", length.code, 0)?;
        let mut form = vec![0; length.value as usize];
        let stored = ours::store(self.volume, &self.storage.cells, &mut form);
        check.answer("store", stored.code, 0)?;
        Ok(form)
    }

    /// A cell's finish as our side answers it.
    pub fn get(&self, cell: Cell) -> Number {
        ours::get(self.volume, &self.storage.cells, cell)
    }

    /// One call of a list.
    pub fn make(&mut self, step: &Step, check: &mut Check) -> Same {
        match *step {
            Step::Call(call) => self.call(call, check),
            Step::Short(list, cell, finish) => self.short(list, cell, finish, check),
            Step::Reload(number) => {
                let sections = self.storage.hashes.len();
                let lists = Storage::any(sections, &mut Rng::of(number, 32, 0));
                *self = self.reloaded(check, lists)?;
                Ok(())
            }
            Step::Spoilt(bit) => self.spoilt(bit, check),
            Step::Anew => {
                let (origin, size) = (self.volume.origin, self.volume.size);
                let lists = std::mem::take(&mut self.storage);
                *self = Self::opened(check, origin, size, lists)?;
                Ok(())
            }
        }
    }

    /// A set, a fill, or an opening that is refused.
    fn call(&mut self, call: Call, check: &mut Check) -> Same {
        match call {
            Call::Open(origin, size) => {
                let code = ours::open(origin, size, &mut self.storage).code;
                check.answer("refused open", code, model::open_code(origin, size))
            }
            Call::Set(cell, finish) => {
                let done = ours::set(self.volume, &mut self.storage, cell, finish);
                let due = self.set_code(cell);
                self.volume = done.volume;
                check.answer("set", done.code, due)
            }
            Call::SetLent(cell, finish) => {
                let due = self.set_code(cell);
                let done = ours::set_lent(&mut self.volume, &mut self.storage, cell, finish);
                check.answer("set, header lent", done.code, due)
            }
            Call::Fill(from, to, finish) => {
                let lies = model::lies(self.volume, from, to);
                check.tally.filled(check.list, lies);
                let done = ours::fill(self.volume, &mut self.storage, from, to, finish);
                self.volume = done.volume;
                check.answer("fill", done.code, 0)
            }
            _ => unreachable!("no other call is made"),
        }
    }

    /// 5 outside the stand.
    fn set_code(&self, cell: Cell) -> u32 {
        if model::inside(self.volume, cell) {
            0
        } else {
            5
        }
    }

    /// A set with one list an entry short, which then gets its entry back.
    fn short(&mut self, list: usize, cell: Cell, finish: u16, check: &mut Check) -> Same {
        let entry = take(&mut self.storage, list);
        let done = ours::set(self.volume, &mut self.storage, cell, finish);
        self.volume = done.volume;
        give(&mut self.storage, list, entry);
        check.answer("set with a list one short", done.code, 4)
    }

    /// A load of its own form with one bit of the digest flipped.
    fn spoilt(&mut self, bit: u32, check: &mut Check) -> Same {
        let mut form = self.form(check)?;
        let at = form.len() - 8 + bit as usize / 8;
        form[at] ^= 1 << (bit % 8);
        let code = ours::load(&form, &mut self.storage).code;
        check.answer("load of another digest", code, 14)
    }
}

/// Takes away a list's last entry.
fn take(s: &mut Storage, list: usize) -> u64 {
    let entry = match list {
        0 => s.cells.pop().map(u64::from),
        1 => s.hashes.pop(),
        2 => s.versions.pop().map(u64::from),
        3 => s.log.pop().map(u64::from),
        _ => s.last.pop(),
    };
    entry.expect("no list of a stand is empty")
}

/// Puts it back.
fn give(s: &mut Storage, list: usize, entry: u64) {
    match list {
        0 => s.cells.push(entry as u16),
        1 => s.hashes.push(entry),
        2 => s.versions.push(entry as u32),
        3 => s.log.push(entry as u32),
        _ => s.last.push(entry),
    }
}
