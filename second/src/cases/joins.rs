//! Code for each of "the nine cases of nothing, a value and many on each side", followed by
//! what tells the result of the join: nothing ends empty, a value is stored, many is a conflict.

use super::Expected;
use crate::answer::Outcome;
use crate::machine::{join_cases, Side};

/// A value: what pushes it, and its type.
type Pushed = (&'static [u8], u8);

const LEFT: &[Pushed] = &[(&[5, 0, 0, 0, 7], 2), (&[4, 1], 1), (&[4, 0], 1)];
/// Equal to the first of the left ones, other than it, and of the other type.
const RIGHT: &[Pushed] = &[(&[5, 0, 0, 0, 7], 2), (&[5, 0, 0, 0, 8], 2), (&[4, 1], 1)];

fn pushes(side: Side, (value, _): Pushed) -> Vec<u8> {
    match side {
        Side::Nothing => vec![38],
        Side::Value => value.to_vec(),
        Side::Many => [value, value, &[39]].concat(),
    }
}

/// The join of the sides, "Nothing with a gives a; two values, or many with anything, give
/// many", then 40 over a raise of empty, and a store into a variable of the type kept.
fn case((left, right): (Side, Side), a: Pushed, b: Pushed) -> (Vec<u8>, Expected) {
    let (outcome, kept) = match (left, right) {
        (Side::Nothing, Side::Nothing) => (Outcome::Empty, a.1),
        (Side::Value, Side::Nothing) => (Outcome::Values, a.1),
        (Side::Nothing, Side::Value) => (Outcome::Values, b.1),
        _ => (Outcome::Conflict, a.1),
    };
    let code = [
        &[1, 0, 2, kept][..],
        &pushes(left, a),
        &pushes(right, b),
        &[39, 40, 0, 1, 32, 41, 0],
    ];
    (code.concat(), Expected::Ends(outcome))
}

/// Every case with every pair of values.
pub fn all() -> Vec<(Vec<u8>, Expected)> {
    let values = || {
        LEFT.iter()
            .flat_map(|a| RIGHT.iter().map(move |b| (*a, *b)))
    };
    join_cases()
        .flat_map(|sides| values().map(move |(a, b)| case(sides, a, b)))
        .collect()
}
