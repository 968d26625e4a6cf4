//! What can be wrong with a line, and the forms in which it is put into one.

use super::words::Place::{self, Cents, Coordinate, Finish};

#[derive(Clone, Copy, PartialEq)]
pub enum Bad {
    UnknownWord,
    MissingNumber,
    NotANumber,
    TooLarge,
    ExtraWord,
    TooLong,
}

impl Bad {
    pub fn text(self) -> &'static str {
        match self {
            Self::UnknownWord => "unknown word",
            Self::MissingNumber => "a number is missing",
            Self::NotANumber => "not a number",
            Self::TooLarge => "a number is too large",
            Self::ExtraWord => "more than the call takes",
            Self::TooLong => "longer than 255 bytes",
        }
    }
}

type Places = &'static [Place];

pub enum Form {
    NoName,
    Missing(Places),
    /// One of these words at one of these places.
    Word(&'static [&'static str], Places),
    /// A sign and a number of at least this at one of these places.
    Past(&'static str, u128, Places),
    Extra,
    Long,
}

const ANY: Places = &[Coordinate, Finish, Cents];
const SIGNED: Places = &[Coordinate];
const UNSIGNED: Places = &[Finish, Cents];

const LETTERS: &[&str] = &["x", "one", "1x", "x1", "-x", "0x10", "1e3", "99999999999x"];
const OTHERS: &[&str] = &["/", ":", "1/", "9:", "1.0", "1,2", "\0", "1\0", "\u{661}"];
const PLUS: &[&str] = &["+1", "+", "+0", "-+1", "+-1", "1+"];
const SIGNS: &[&str] = &["--1", "--", "--0", "-1-", "1-", "1-1"];
const BELOW: &[&str] = &["-1", "-0", "-00", "-65536", "-4294967296"];

/// Each with its name.
pub const FORMS: [(&str, Form); 16] = [
    ("no name of a call", Form::NoName),
    ("numbers left out", Form::Missing(ANY)),
    ("letters", Form::Word(LETTERS, ANY)),
    ("other bytes", Form::Word(OTHERS, ANY)),
    ("a plus", Form::Word(PLUS, ANY)),
    ("two signs", Form::Word(SIGNS, ANY)),
    ("a sign alone", Form::Word(&["-"], ANY)),
    ("a sign at an unsigned place", Form::Word(BELOW, UNSIGNED)),
    ("past i32", Form::Past("", 1 << 31, SIGNED)),
    ("below i32", Form::Past("-", (1 << 31) + 1, SIGNED)),
    ("past u16", Form::Past("", 1 << 16, &[Finish])),
    ("past u32", Form::Past("", 1 << 32, ANY)),
    ("2^64 and beyond", Form::Past("", 1 << 64, ANY)),
    ("-2^64 and below", Form::Past("-", 1 << 64, SIGNED)),
    ("words after the call", Form::Extra),
    ("a call and more than fits", Form::Long),
];

impl Form {
    pub fn bad(&self) -> Bad {
        match self {
            Self::NoName => Bad::UnknownWord,
            Self::Missing(_) => Bad::MissingNumber,
            Self::Word(..) => Bad::NotANumber,
            Self::Past(..) => Bad::TooLarge,
            Self::Extra => Bad::ExtraWord,
            Self::Long => Bad::TooLong,
        }
    }
}
