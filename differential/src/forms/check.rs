//! Calls on forms, each held to the encoder and to the loader.

use super::encoder::Form;
use super::fault::Ours;
use super::loader;
use super::tally::{Call, Part, Tallies};
use crate::ffi::{Number, Opened, Volume};
use crate::model;
use crate::ours::{self, Storage};
use crate::pair::{Difference, MODEL, Same, agree, equal, equal_lists};
use std::fmt::Debug;

/// Bytes of an output before a call.
const DIRT: u8 = 0xe7;
/// The longest form that is printed whole.
const SHOWN: usize = 200;

/// Our side, and what was compared with it.
pub struct Check {
    pub ours: Ours,
    pub part: Part,
    pub tallies: Tallies,
}

impl Check {
    pub fn new(ours: Ours, part: Part) -> Self {
        Self {
            ours,
            part,
            tallies: Tallies::default(),
        }
    }

    pub fn same<T: PartialEq + Debug>(&mut self, what: &str, ours: T, due: T) -> Same {
        self.tallies.compared(self.part);
        agree(what, ours, MODEL, due)
    }

    pub fn same_bytes(&mut self, what: &str, ours: &[u8], due: &[u8]) -> Same {
        self.tallies.compared(self.part);
        equal(what, ours, MODEL, due)
    }

    fn same_lists(&mut self, ours: &Storage, due: &Storage) -> Same {
        self.tallies.compared(self.part);
        equal_lists(ours, due)
    }

    /// A form that the part has in hand.
    pub fn form(&mut self) {
        self.tallies.form(self.part);
    }

    /// Stores into an output of a length: 3, 4, 15, or the form, and nothing else written. What it answered.
    pub fn store(&mut self, v: Volume, cells: &[u16], len: usize) -> Result<u32, Difference> {
        let form = stored(v, cells);
        self.store_due(v, cells, len, &form)
    }

    /// The same, with the bytes that are due at hand, or the number where the call is refused whatever the output.
    fn store_due(
        &mut self,
        v: Volume,
        cells: &[u16],
        len: usize,
        form: &Result<Vec<u8>, u32>,
    ) -> Result<u32, Difference> {
        let mut due = vec![DIRT; len];
        let mut out = due.clone();
        let answer = match form {
            Err(code) => refused(*code),
            Ok(form) if form.len() > len => refused(15),
            Ok(form) => {
                due[..form.len()].copy_from_slice(form);
                accepted(form.len())
            }
        };
        let got = self.ours.store(v, cells, &mut out);
        self.tallies.answered(self.part, Call::Store, answer.code);
        self.same("store", got, answer)
            .and_then(|()| self.same_bytes("output", &out, &due))
            .map_err(|d| told(d, &format!("{v:?}, output of {len} bytes")))?;
        Ok(answer.code)
    }

    /// Stores into outputs of these lengths, counted from the form's, and asks for the length.
    pub fn stores(&mut self, v: Volume, cells: &[u16], more: &[i64]) -> Same {
        let form = stored(v, cells);
        let due = match &form {
            Err(code) => refused(*code),
            Ok(form) => accepted(form.len()),
        };
        if due.code == 0 {
            self.form();
        }
        let got = self.ours.stored_length(v, cells);
        self.tallies.answered(self.part, Call::Length, due.code);
        self.same("stored_length", got, due)?;
        for more in more {
            let len = (due.value as i64 + more).max(0) as usize;
            self.store_due(v, cells, len, &form)?;
        }
        Ok(())
    }

    /// Loads a form into a copy of lists: 1, 2, 4, 14 and nothing written, or all that a load leaves. What it answered.
    pub fn load(&mut self, form: &[u8], lists: &Storage) -> Result<u32, Difference> {
        self.form();
        let result = self.try_load(form, lists);
        result.map_err(|d| told(d, &shown(form)))
    }

    fn try_load(&mut self, form: &[u8], lists: &Storage) -> Result<u32, Difference> {
        self.header(form)?;
        let due = loader::load(form, Some(lists));
        let answer = opened(&due);
        let mut s = lists.clone();
        let got = self.ours.load(form, &mut s);
        self.tallies.answered(self.part, Call::Load, answer.code);
        self.same("load", got, answer)?;
        match due {
            Err(_) => self.same_lists(&s, lists)?,
            Ok(held) => {
                self.same_lists(&s, &held.storage())?;
                self.loaded(form, got.volume, s)?;
            }
        }
        Ok(answer.code)
    }

    fn header(&mut self, form: &[u8]) -> Same {
        let due = opened(&loader::load(form, None));
        let got = self.ours.stored_header(form);
        self.tallies.answered(self.part, Call::Header, due.code);
        self.same("stored_header", got, due)
    }

    /// After a load: the digest, the bytes of a store, and a set.
    fn loaded(&mut self, form: &[u8], v: Volume, mut s: Storage) -> Same {
        let digest = form.last_chunk().map_or(0, |d| u64::from_le_bytes(*d));
        let due = Number {
            code: 0,
            value: digest,
        };
        self.same("digest after load", ours::digest(v, &s.hashes), due)?;
        let form = Ok(form.to_vec());
        let len = form.as_ref().map_or(0, Vec::len);
        self.store_due(v, &s.cells, len, &form)?;
        self.set_after(v, &mut s)
    }

    /// A set after a load counts generation 1.
    fn set_after(&mut self, v: Volume, s: &mut Storage) -> Same {
        let (mut after, mut due) = (v, s.clone());
        let finish = s.cells[0] ^ 5;
        model::set(&mut after, &mut due, v.origin, finish);
        let got = ours::set(v, s, v.origin, finish);
        self.same("set after load", (got.code, got.changed), (0, 1))?;
        self.same("header after it", got.volume, after)?;
        self.same("generation after it", got.volume.generation, 1)?;
        self.same_lists(s, &due)
    }
}

/// The bytes that a store writes, or its refusal by 3 or 4.
fn stored(v: Volume, cells: &[u16]) -> Result<Vec<u8>, u32> {
    match model::list_code(v, 4_096, cells.len()) {
        0 => Ok(Form::of(v, cells).bytes()),
        code => Err(code),
    }
}

fn accepted(length: usize) -> Number {
    Number {
        code: 0,
        value: length as u64,
    }
}

fn refused(code: u32) -> Number {
    Number { code, value: 0 }
}

/// What a load answers: the header of what the form holds, or of zeros.
fn opened(due: &Result<Form, u32>) -> Opened {
    match due {
        Ok(form) => Opened {
            code: 0,
            volume: form.header(),
        },
        Err(code) => Opened {
            code: *code,
            volume: Volume::default(),
        },
    }
}

/// A difference, and on what.
fn told(difference: Difference, what: &str) -> Difference {
    Difference(format!("{}; {what}", difference.0))
}

/// A form in hexadecimal, the end of a long one left out.
fn shown(form: &[u8]) -> String {
    let first = form.iter().take(SHOWN).map(|byte| format!("{byte:02x}"));
    let more = if form.len() > SHOWN { ".." } else { "" };
    let first: String = first.collect();
    format!("form of {} bytes: {first}{more}", form.len())
}
