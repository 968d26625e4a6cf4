//! Bad lines: each has one fault put in; before it the line is good, after it anything may come.

use super::bad::Form;
use super::line::{Line, Says, fitting};
use super::pen::{LONGEST, Pen, not_newline};
use super::words::{Place, places};
use crate::rng::Rng;
use crate::trial::call::NAMES;

impl Form {
    pub fn line(&self, rng: &mut Rng, carriage: bool) -> Line {
        let mut line = fitting(|| {
            let mut pen = Pen::new(rng);
            self.write(&mut pen);
            pen.end(Says::Bad(self.bad()), carriage)
        });
        if let Self::Long = self {
            lengthen(&mut line.bytes, rng);
            line.marks.clear();
        }
        line
    }

    fn write(&self, pen: &mut Pen) {
        match self {
            Self::NoName => {
                let name = no_name(pen.rng);
                pen.word(&name);
            }
            Self::Missing(at) => return begin(pen, at),
            Self::Word(words, at) => {
                begin(pen, at);
                let word = pen.rng.pick(words);
                pen.word(word.as_bytes());
            }
            Self::Past(sign, least, at) => {
                begin(pen, at);
                let digits = past(pen.rng, *least);
                pen.digits(sign, digits);
            }
            Self::Extra => {
                whole(pen);
                any_word(pen);
            }
            Self::Long => return whole(pen),
        }
        for _ in 0..pen.rng.pick(&[0, 0, 1, 3, 6]) {
            any_word(pen);
        }
    }
}

/// A call up to one of such places.
fn begin(pen: &mut Pen, such: &[Place]) {
    let all = (0..NAMES.len()).flat_map(|n| (0..places(n).len()).map(move |at| (n, at)));
    let fit = all.filter(|(name, at)| such.contains(&places(*name)[*at]));
    let fit: Vec<_> = fit.collect();
    let (name, at) = pen.rng.pick(&fit);
    call(pen, name, at);
}

fn whole(pen: &mut Pen) {
    let name = pen.rng.below(NAMES.len() as u64) as usize;
    call(pen, name, places(name).len());
}

/// A call's name and its first numbers, any that their places take.
fn call(pen: &mut Pen, name: usize, count: usize) {
    pen.word(NAMES[name].as_bytes());
    for place in places(name).into_iter().take(count) {
        let (least, most) = place.limits();
        let any = pen.rng.between(least, most);
        let number = pen.rng.pick(&[0, 1, 16, least, most, any]);
        pen.number(place, number);
    }
}

fn any_word(pen: &mut Pen) {
    let words = ["0", "1", "-1", "-", "x", "set", "65536", "99999999999"];
    let word = pen.rng.pick(&words);
    pen.word(word.as_bytes());
}

/// A name cut short, with more behind it or in capitals, two names, a number, or any bytes.
fn no_name(rng: &mut Rng) -> Vec<u8> {
    let (name, other) = (rng.pick(&NAMES), rng.pick(&NAMES));
    let mut word = match rng.below(6) {
        0 => name[..name.len() - 1].into(),
        1 => [name.as_bytes(), &[word_byte(rng)]].concat(),
        2 => name.to_uppercase().into_bytes(),
        3 => [name, other].concat().into_bytes(),
        4 => rng.below(100).to_string().into_bytes(),
        _ => (0..rng.between(1, 9)).map(|_| word_byte(rng)).collect(),
    };
    if NAMES.iter().any(|n| n.as_bytes() == word) {
        word.push(b'?');
    }
    word
}

/// Any byte that a word can hold.
fn word_byte(rng: &mut Rng) -> u8 {
    match not_newline(rng) {
        b' ' | b'\t' | b'\r' | b'#' => b'_',
        byte => byte,
    }
}

/// A number just past a limit, or farther.
fn past(rng: &mut Rng, least: u128) -> String {
    let (near, far) = (rng.below(1_000), rng.below(1 << 40));
    let number = least + u128::from(rng.pick(&[0, 0, 1, near, far]));
    let mut digits = number.to_string();
    for _ in 0..rng.pick(&[0, 0, 0, 1, 30]) {
        digits += &rng.below(10).to_string();
    }
    digits
}

fn lengthen(bytes: &mut Vec<u8>, rng: &mut Rng) {
    let length = LONGEST + rng.pick(&[1, 1, 2, 255, 256, 257, 1_000]);
    let any = not_newline(rng);
    let filler = rng.pick(&[b' ', b'\r', b'#', b'0', any]);
    bytes.resize(length, filler);
}
