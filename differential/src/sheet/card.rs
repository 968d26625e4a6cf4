//! The card: rates by finish, and the cut.

use crate::rng::Rng;
use std::fmt;

/// The limit of a rate and of the cut.
pub const LIMIT: u32 = 1_000_000;

/// `length` rates; that of finish f is low + f·step modulo 1,000,001, but for one finish.
#[derive(Clone, Copy, PartialEq, Debug, Default)]
pub struct Card {
    pub length: usize,
    pub low: u32,
    pub step: u32,
    pub odd: (u16, u32),
    pub cut: u32,
}

impl Card {
    pub fn rates(&self) -> Vec<u32> {
        let rate = |f: usize| (self.low as usize + f * self.step as usize) % 1_000_001;
        let mut rates: Vec<u32> = (0..self.length).map(|f| rate(f) as u32).collect();
        if let Some(rate) = rates.get_mut(usize::from(self.odd.0)) {
            *rate = self.odd.1;
        }
        rates
    }

    /// Most cards price every finish; some lack one, or have a rate or a cut above the limit.
    pub fn any(rng: &mut Rng) -> Self {
        let length = match rng.below(10) {
            0 => 4,
            1 => rng.pick(&[0, 1, 2, 3, 5, 65_535]),
            _ => 65_536,
        };
        let plain = if rng.chance(25) {
            LIMIT
        } else {
            rng.below(500) as u32
        };
        let odd = if rng.chance(15) {
            rng.pick(&[LIMIT + 1, u32::MAX])
        } else {
            rng.pick(&[0, 1, 100, LIMIT])
        };
        let cut = match rng.below(20) {
            0 => rng.pick(&[LIMIT + 1, u32::MAX]),
            1..4 => LIMIT,
            4..6 => 0,
            _ => rng.below(1_000) as u32,
        };
        Self {
            length,
            low: plain,
            step: rng.pick(&[0, 1, 37, 999_999]),
            odd: (rng.pick(&[0, 1, 2, 3, 65_535]), odd),
            cut,
        }
    }
}

impl fmt::Display for Card {
    fn fmt(&self, f: &mut fmt::Formatter) -> fmt::Result {
        let (finish, rate) = self.odd;
        write!(
            f,
            "{} rates of {} + {} f, finish {finish} at {rate}, cut {}",
            self.length, self.low, self.step, self.cut
        )
    }
}
