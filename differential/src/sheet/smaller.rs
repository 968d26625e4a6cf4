//! Simpler calls on the sheet, for the smallest list.

use super::{Ask, Card, Harm, Trial};

const PLAIN: Card = Card {
    length: 65_536,
    low: 100,
    step: 0,
    odd: (0, 0),
    cut: 50,
};

pub fn smaller(ask: Ask) -> Vec<Ask> {
    match ask {
        Ask::Open(card, rule) if card != PLAIN => vec![Ask::Open(PLAIN, rule)],
        Ask::Trial(t) => trials(t)
            .into_iter()
            .filter(|s| *s != t)
            .map(Ask::Trial)
            .collect(),
        _ => Vec::new(),
    }
}

fn trials(t: Trial) -> Vec<Trial> {
    vec![
        Trial { card: PLAIN, ..t },
        Trial {
            harm: Harm::None,
            ..t
        },
        Trial { short: false, ..t },
        Trial {
            lag: t.lag.map(|n| n / 2),
            ..t
        },
    ]
}
