//! Headers and lists that do not fit.

use crate::ffi::{Extent, Volume};

/// What is wrong with the header or with a list lent.
#[derive(Clone, Copy, PartialEq, Debug)]
pub enum Harm {
    None,
    /// One section more along an axis.
    Chunks(usize),
    /// A size of 0 along an axis.
    Size(usize),
    CellsShort,
    LogShort,
    LastShort,
    SheetShort,
    SheetLong,
}

impl Harm {
    /// The header with its harm.
    pub fn header(self, mut v: Volume) -> Volume {
        let axis = |e: &mut Extent, a: usize, n: fn(i32) -> i32| match a {
            0 => e.x = n(e.x),
            1 => e.y = n(e.y),
            _ => e.z = n(e.z),
        };
        match self {
            Self::Chunks(a) => axis(&mut v.chunks, a, |n| n + 1),
            Self::Size(a) => axis(&mut v.size, a, |_| 0),
            _ => {}
        }
        v
    }

    /// The sheet at another length where the harm is to it.
    pub fn sheet(self, rows: &mut Vec<u64>) {
        match self {
            Self::SheetShort => {
                rows.pop();
            }
            Self::SheetLong => rows.push(7),
            _ => {}
        }
    }

    /// A list with its last entry left out where the harm is to it.
    pub fn cut<T>(self, own: Self, list: &[T]) -> &[T] {
        &list[..list.len() - usize::from(self == own)]
    }

    /// A list of another length, of those that an opening or a refresh is lent.
    pub fn to_list(self, refresh: bool) -> bool {
        match self {
            Self::CellsShort | Self::SheetShort | Self::SheetLong => true,
            Self::LogShort | Self::LastShort => refresh,
            _ => false,
        }
    }

    /// The sheet is of another length.
    pub fn to_sheet(self) -> bool {
        matches!(self, Self::SheetShort | Self::SheetLong)
    }
}
