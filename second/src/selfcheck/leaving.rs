//! Where evaluations and runs leave the range, and on which side.

use crate::cases::{lend, Case};
use crate::evaluate::{observed_evaluate, Observer};
use crate::value::{Failure, Place};
use crate::Overriding;
use std::cell::RefCell;

/// What leaves the range, an evaluation or code by the label of its case; where; the side.
pub type Leaving = (&'static str, Place, Failure);

pub const EVALUATED: &str = "evaluated";
pub const COMPILED: &str = "compiled code";
/// Code that no compiler wrote.
const FOREIGN: [&str; 2] = ["directed code", "hand-made code"];

/// What code shows of a place: the operator, and whether it is in an entered sub-scope.
const IN_CODE: [Place; 4] = [Place::Negate, Place::Add, Place::Subtract, Place::Call];
/// What only trees show.
const IN_TREES: [Place; 3] = [
    Place::ClauseException,
    Place::NodeException,
    Place::Override,
];

/// Each place with each side that it has: "Negating −2,147,483,648 is above", and no
/// negating is below.
fn each(of: &'static str, places: &[Place]) -> Vec<Leaving> {
    let both = [Failure::Above, Failure::Below];
    let all = places
        .iter()
        .flat_map(|&place| both.map(|side| (place, side)));
    let had = all.filter(|&one| one != (Place::Negate, Failure::Below));
    had.map(|(place, side)| (of, place, side)).collect()
}

/// All that must be met, by what leaves the range.
pub fn expected_leaving() -> Vec<Vec<Leaving>> {
    let everywhere = [&IN_CODE[..], &IN_TREES].concat();
    let mut all = vec![each(EVALUATED, &everywhere), each(COMPILED, &IN_CODE)];
    all.extend(FOREIGN.map(|label| each(label, &IN_CODE)));
    all
}

/// Keeps where the range is left.
#[derive(Default)]
struct Places(RefCell<Vec<(Place, Failure)>>);

impl Observer for Places {
    fn fails(&self, place: Place, failure: Failure) {
        if matches!(failure, Failure::Above | Failure::Below) {
            self.0.borrow_mut().push((place, failure));
        }
    }
}

/// Where the evaluation of a case leaves the range: at an operator, and at all that it is
/// part of.
pub fn places(case: &Case) -> Vec<(Place, Failure)> {
    let (met, mut memory) = (Places::default(), lend(case.room));
    let (now, scope, inputs) = (Overriding::FallsBack, case.scope, &case.inputs);
    // The answer is compared elsewhere.
    let _ = observed_evaluate(now, &case.bytes, scope, inputs, &mut memory, &met);
    met.0.into_inner()
}
