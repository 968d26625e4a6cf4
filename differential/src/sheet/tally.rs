//! What the sheet's part did: answers by code, and refreshes by the changes before them.

use std::collections::BTreeMap;

#[derive(Clone, Default)]
pub struct Tally {
    /// Answers of the three calls, 0 for accepted.
    codes: BTreeMap<u32, u64>,
    lags: [u64; 5],
}

const LAGS: [&str; 5] = ["0", "1", "2 or more", "as many as sections", "more"];

impl Tally {
    pub fn answered(&mut self, code: u32) {
        *self.codes.entry(code).or_default() += 1;
    }

    /// A refresh of the sheet that is kept, `lag` changes after the last on `sections`.
    pub fn lagged(&mut self, lag: u64, sections: u64) {
        let class = match lag {
            0 => 0,
            n if n == sections => 3,
            n if n > sections => 4,
            1 => 1,
            _ => 2,
        };
        self.lags[class] += 1;
    }

    pub fn add(&mut self, other: &Self) {
        for (code, n) in &other.codes {
            *self.codes.entry(*code).or_default() += n;
        }
        for (mine, theirs) in self.lags.iter_mut().zip(other.lags) {
            *mine += theirs;
        }
    }

    pub fn print(&self) {
        if self.codes.is_empty() {
            return;
        }
        let codes = self.codes.iter();
        let by: Vec<String> = codes.map(|(code, n)| format!("{code}: {n}")).collect();
        println!(
            "  answers on the sheet by code (0 accepted): {}",
            by.join(", ")
        );
        let lags = LAGS.iter().zip(self.lags);
        let by: Vec<String> = lags.map(|(name, n)| format!("{name}: {n}")).collect();
        println!("  refreshes by changes since the mark: {}", by.join(", "));
    }
}
