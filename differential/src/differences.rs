//! Differences among cases that have numbers: how many, and the first.

pub struct Differences<T> {
    pub count: u64,
    /// Its number, and the case.
    pub first: Option<(u64, T)>,
}

impl<T> Default for Differences<T> {
    fn default() -> Self {
        Self {
            count: 0,
            first: None,
        }
    }
}

impl<T> Differences<T> {
    pub fn add(&mut self, number: u64, case: T) {
        self.count += 1;
        if self.first.as_ref().is_none_or(|f| number < f.0) {
            self.first = Some((number, case));
        }
    }
}
