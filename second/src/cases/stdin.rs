//! Standard input of rulerun.

use super::mix::evaluation;
use super::random::Random;

/// Length, book, scope and inputs of an accepted book; sometimes bytes are missing,
/// or the length is another.
pub fn standard_input(seed: u64) -> Vec<u8> {
    let rng = &mut Random::new(seed);
    let case = evaluation(rng);
    let mut length = case.bytes.len();
    if rng.percent(5) {
        length = rng.below(length + 3);
    }
    let mut bytes = (length as u16).to_be_bytes().to_vec();
    bytes.extend(&case.bytes);
    bytes.push(case.scope as u8);
    bytes.extend(&case.inputs);
    if rng.percent(20) {
        bytes.truncate(rng.below(bytes.len()));
    }
    bytes
}
