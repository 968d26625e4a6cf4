//! Calls on the sheet, as they stand in lists.

use super::{Card, Harm};
use std::fmt;

#[derive(Clone, Copy, PartialEq, Debug)]
pub enum Ask {
    /// Opens the sheet; card and rule are kept for refreshes.
    Open(Card, u32),
    Refresh,
    /// A call on a copy of the sheet, after which nothing is kept.
    Trial(Trial),
    /// Totals of a copy.
    Sum(Sum),
}

#[derive(Clone, Copy, PartialEq, Debug)]
pub struct Trial {
    pub refresh: bool,
    pub card: Card,
    pub rule: u32,
    /// Changes since the mark; None for a mark ahead.
    pub lag: Option<u64>,
    /// A mask with one slot too few.
    pub short: bool,
    pub harm: Harm,
}

/// Rows of the sheet or rows at their limits, with one number of them replaced.
#[derive(Clone, Copy, PartialEq, Debug)]
pub struct Sum {
    pub full: bool,
    pub at: usize,
    pub by: By,
    pub harm: Harm,
}

/// The number put there, seen from the limit.
#[derive(Clone, Copy, PartialEq, Debug)]
pub enum By {
    Limit,
    Above,
    Largest,
}

impl fmt::Display for Ask {
    fn fmt(&self, f: &mut fmt::Formatter) -> fmt::Result {
        match self {
            Self::Open(card, rule) => write!(f, "open sheet, rule {rule}, {card}"),
            Self::Refresh => write!(f, "refresh"),
            Self::Trial(t) => write!(f, "{t}"),
            Self::Sum(s) => write!(f, "totals of a copy: {s:?}"),
        }
    }
}

impl fmt::Display for Trial {
    fn fmt(&self, f: &mut fmt::Formatter) -> fmt::Result {
        let name = if self.refresh {
            "refresh"
        } else {
            "open sheet"
        };
        let lag = self.lag.map_or("ahead".into(), |n| format!("{n} back"));
        let mask = if self.short { ", mask too short" } else { "" };
        write!(
            f,
            "{name} on a copy, mark {lag}{mask}, harm {:?}, rule {}, {}",
            self.harm, self.rule, self.card
        )
    }
}
