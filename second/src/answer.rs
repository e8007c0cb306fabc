//! What an evaluation or a run hands back.

use crate::value::Failure;

/// How a run ended; the discriminant is its number.
#[derive(Clone, Copy, Debug, PartialEq, Eq, PartialOrd, Ord)]
#[repr(u8)]
pub enum Outcome {
    Values = 0,
    Empty = 1,
    Conflict = 2,
    Above = 3,
    Below = 4,
}

impl Outcome {
    pub const ALL: [Outcome; 5] = [
        Outcome::Values,
        Outcome::Empty,
        Outcome::Conflict,
        Outcome::Above,
        Outcome::Below,
    ];

    pub fn is_out_of_range(self) -> bool {
        matches!(self, Outcome::Above | Outcome::Below)
    }
}

impl From<Failure> for Outcome {
    fn from(failure: Failure) -> Outcome {
        match failure {
            Failure::Empty => Outcome::Empty,
            Failure::Conflict => Outcome::Conflict,
            Failure::Above => Outcome::Above,
            Failure::Below => Outcome::Below,
        }
    }
}

/// Outcome, count of scopes entered, and length of the results (0 without values).
#[derive(Clone, Copy, Debug, PartialEq, Eq)]
pub struct Answer {
    pub outcome: Outcome,
    pub count: usize,
    pub length: usize,
}
