//! The boxes of fills, by how they lie to the stand.

use crate::model::Lies;

#[derive(Clone, Default)]
pub struct Boxes {
    inside: u64,
    across: u64,
    /// By the axes on which box and stand do not meet: one, two, three.
    beside: [u64; 3],
}

impl Boxes {
    pub fn count(&mut self, lies: Lies) {
        match lies {
            Lies::Inside => self.inside += 1,
            Lies::Across => self.across += 1,
            Lies::Beside(axes) => self.beside[axes - 1] += 1,
        }
    }

    pub fn add(&mut self, other: &Self) {
        self.inside += other.inside;
        self.across += other.across;
        for (mine, theirs) in self.beside.iter_mut().zip(other.beside) {
            *mine += theirs;
        }
    }

    /// Boxes of which the Rust is not asked.
    pub fn beside(&self) -> u64 {
        self.beside.iter().sum()
    }

    /// What a run must show and has not.
    pub fn missing(&self) -> Vec<&'static str> {
        let [one, two, three] = self.beside;
        let all = [
            (self.inside, "boxes inside the stand"),
            (self.across, "boxes across the stand's edge"),
            (one, "boxes beside the stand on one axis"),
            (two, "boxes beside the stand on two axes"),
            (three, "boxes beside the stand on three axes"),
        ];
        all.into_iter().filter(|m| m.0 == 0).map(|m| m.1).collect()
    }

    pub fn print(&self) {
        let (inside, across, beside) = (self.inside, self.across, self.beside());
        if inside + across + beside == 0 {
            return;
        }
        println!("  boxes filled: {inside} inside the stand, {across} across its edge");
        let [one, two, three] = self.beside;
        println!(
            "  boxes beside the stand, held to the model, the Rust not asked: {beside} \
             (on one axis {one}, on two {two}, on three {three})"
        );
    }
}
