//! Faults put into the reference's side or into what the program showed, to see that they are found.

use super::process::Shown;

#[derive(Clone, Copy, PartialEq, Debug)]
pub enum Fault {
    /// A refresh that measures only changed sections.
    Neighbours,
    /// A rate or a cut after which old rows stay.
    OldCard,
    /// A second opening after which old rows stay.
    OldRows,
    /// A refused refresh that moves the mark, and one after which not all are measured.
    Moved,
    Forgotten,
    /// A refused opening that drops the stand.
    Dropped,
    /// A fill beside the stand that reaches its rim.
    Rim,
    /// An opening refused by 4 where 1 or 2 applies too.
    FourFirst,
    /// An input cut short in a body that ends like any other.
    Silent,
    /// The program's last newline lost, its exit status 1, a word on its standard error.
    Newline,
    Status,
    Errors,
}

pub const ALL: [Fault; 12] = [
    Fault::Neighbours,
    Fault::OldCard,
    Fault::OldRows,
    Fault::Moved,
    Fault::Forgotten,
    Fault::Dropped,
    Fault::Rim,
    Fault::FourFirst,
    Fault::Silent,
    Fault::Newline,
    Fault::Status,
    Fault::Errors,
];

impl Fault {
    /// What the program showed.
    pub fn spoil(self, shown: &mut Shown) {
        match self {
            Self::Newline => {
                shown.out.pop();
            }
            Self::Status => shown.code = Some(1),
            Self::Errors => shown.err.push(b'?'),
            _ => {}
        }
    }
}
