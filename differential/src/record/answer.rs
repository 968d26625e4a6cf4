//! An answer as the text of a case has it.

use std::fmt;

/// More numbers than this are given by their fold.
const SHOWN: usize = 12;

pub enum Answer {
    Word(&'static str),
    Numbers(Vec<i128>),
    Refused(u32),
    /// Refused by 11, with the panels needed.
    Short(usize),
}

impl Answer {
    pub fn of<N: Into<i128>>(numbers: impl IntoIterator<Item = N>) -> Self {
        Self::Numbers(numbers.into_iter().map(Into::into).collect())
    }

    /// One number, or the refusal where there is none.
    pub fn number<N: Into<i128>>(n: Option<N>, code: u32) -> Self {
        n.map_or(Self::Refused(code), |n| Self::of([n]))
    }

    /// What it comes to, for the counts.
    pub fn outcome(&self) -> String {
        match self {
            Self::Refused(_) => self.to_string(),
            Self::Short(_) => Self::Refused(11).to_string(),
            _ => "answered".into(),
        }
    }
}

/// Numbers folded as document 01's digest folds 64-bit values, a negative one as its 32-bit pattern.
fn fold(numbers: &[i128]) -> u64 {
    let word = |n: i128| match u64::try_from(n) {
        Ok(n) => n,
        Err(_) => u64::from(n as u32),
    };
    let start = 0xcbf2_9ce4_8422_2325_u64;
    numbers.iter().fold(start, |held, n| {
        (held ^ word(*n)).wrapping_mul(0x0000_0100_0000_01b3)
    })
}

impl fmt::Display for Answer {
    fn fmt(&self, f: &mut fmt::Formatter) -> fmt::Result {
        match self {
            Self::Word(word) => write!(f, "{word}"),
            Self::Numbers(list) if list.is_empty() => write!(f, "none"),
            Self::Numbers(list) if list.len() > SHOWN => write!(f, "fold {}", fold(list)),
            Self::Numbers(list) => {
                let words: Vec<String> = list.iter().map(ToString::to_string).collect();
                write!(f, "{}", words.join(" "))
            }
            Self::Refused(code) => write!(f, "refused {code}"),
            Self::Short(needed) => write!(f, "refused 11 {needed}"),
        }
    }
}
