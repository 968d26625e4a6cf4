//! One random stand, and a second that differs from it in one cell.

use super::check::{Change, Check};
use super::fault::Ours;
use super::routes::{Goal, ROUTES, Route, lists, put_in};
use super::stand::Stand;
use super::step::{self, Step, another, any_finish, set};
use super::tally::Tally;
use crate::calls::{Call, Maker};
use crate::ffi::{Cell, Extent};
use crate::ours;
use crate::pair::{Difference, Same};
use crate::rng::Rng;
use crate::tiers::TIERS;

pub struct Case {
    /// The calls by which the first stand is reached, after its opening.
    pub first: Vec<Step>,
    maker: Maker,
    asked: Extent,
    /// The cell that changes.
    cell: Cell,
    seed: u64,
    number: u64,
}

impl Case {
    /// Most stands have at most 64 cells, nearly one in five up to 8 sections, one in a hundred up to 64.
    pub fn make(seed: u64, number: u64) -> Self {
        let rng = &mut Rng::of(seed, 30, number);
        let tier = match number % 100 {
            0 => 2,
            n if n % 5 == 0 => 1,
            _ => 0,
        };
        let mut maker = Maker::new(TIERS[tier].mix);
        let (_, asked) = maker.opening(rng);
        let cell = step::inside(&maker, rng);
        let mut first = step::some(rng.below(30), &maker, rng);
        match rng.below(3) {
            0 => first.push(set(cell, any_finish(rng), rng)),
            1 => put_in(&mut first, set(cell, any_finish(rng), rng), rng),
            _ => {}
        }
        Self {
            first,
            maker,
            asked,
            cell,
            seed,
            number,
        }
    }

    /// The same case after other calls.
    pub fn with(&self, first: &[Step]) -> Self {
        Self {
            first: first.to_vec(),
            ..*self
        }
    }

    /// The opening of both stands.
    pub fn opening(&self) -> Call {
        Call::Open(self.maker.origin, self.asked)
    }

    /// What was done, and the difference if there is one.
    pub fn run(&self, ours: Ours) -> (Tally, Option<Difference>) {
        let mut check = Check::new(ours);
        let same = self.all(&mut check);
        (check.tally, same.err())
    }

    /// The first stand, and a change of one of its cells.
    fn all(&self, check: &mut Check) -> Same {
        let rng = &mut Rng::of(self.seed, 31, self.number);
        let lists = lists(ours::sections_of(self.asked), rng);
        let mut one = Stand::opened(check, self.maker.origin, self.asked, lists)?;
        for step in &self.first {
            one.make(step, check)?;
        }
        let from = one.get(self.cell).value as u16;
        let change = Change {
            cell: self.cell,
            from,
            to: another(from, rng),
        };
        check.tally.changed(one.volume, change);
        let route = rng.pick(&ROUTES);
        self.beside(check, &one, change, route, rng)
            .map_err(|d| Difference(format!("{}; {}; {}", d.0, self.told(change), route.0)))
    }

    /// The second stand, reached by other calls, beside the first.
    fn beside(
        &self,
        check: &mut Check,
        one: &Stand,
        change: Change,
        route: Route,
        rng: &mut Rng,
    ) -> Same {
        check.list = 1;
        let goal = Goal::new(&self.maker, self.asked, one, &self.first, change);
        let mut two = goal.reach(route, check, rng)?;
        check.one_off(one, &mut two, change)
    }

    /// The shape, the cell and its finishes.
    fn told(&self, change: Change) -> String {
        let Cell { x, y, z } = change.cell;
        let (opening, from, to) = (self.opening(), change.from, change.to);
        format!("{opening}; cell ({x}, {y}, {z}) with {from} in the first, {to} in the second")
    }
}
