//! Input lists, good ones and every way of refusal 14.

use super::draft::YES_NO;
use super::random::Random;

/// A record for a variable of a type, with any value.
pub fn record(rng: &mut Random, variable: usize, of: u8) -> Vec<u8> {
    let mut bytes = vec![of, variable as u8];
    match of {
        YES_NO => bytes.push(rng.below(2) as u8),
        _ => bytes.extend(rng.number(20).to_be_bytes()),
    }
    bytes
}

/// A good list: some of the variables, in any order.
pub fn good(rng: &mut Random, types: &[u8]) -> Vec<u8> {
    good_without(rng, types, &[])
}

/// A good list that has none of some variables.
pub fn good_without(rng: &mut Random, types: &[u8], without: &[u8]) -> Vec<u8> {
    let chance = rng.pick(&[0, 0, 20, 50, 100]);
    let mut records = Vec::new();
    for (variable, &of) in types.iter().enumerate() {
        if rng.percent(chance) && !without.contains(&(variable as u8)) {
            records.push(record(rng, variable, of));
        }
    }
    rng.shuffle(&mut records);
    records.concat()
}

/// How many ways there are for a list to be bad.
pub const WAYS: usize = 8;

/// A list that is bad in one way: a bad record alone or behind a good list.
pub fn bad(rng: &mut Random, types: &[u8], way: usize) -> Vec<u8> {
    let unknown = rng.range(types.len(), 255);
    let behind = match way {
        // An unknown kind.
        0 => vec![rng.pick(&[0, 3, 4, 128, 255]), 0, 0, 0, 0, 0],
        // A variable that is not there.
        1 => record(rng, unknown, 1),
        2 => record(rng, unknown, 2),
        // A variable given twice.
        3 => match types.first() {
            Some(&of) => return [record(rng, 0, of), record(rng, 0, of)].concat(),
            None => record(rng, unknown, 1),
        },
        _ => return bad_record(rng, types, way),
    };
    [good(rng, types), behind].concat()
}

/// One record that is truncated, has an invalid value or is of the wrong type.
fn bad_record(rng: &mut Random, types: &[u8], way: usize) -> Vec<u8> {
    match way {
        4 => {
            let of = rng.pick(&[1, 2]);
            let mut short = record(rng, variable_of(types, of), of);
            short.truncate(rng.range(1, short.len() - 1));
            short
        }
        5 => vec![1, variable_of(types, 1) as u8, rng.pick(&[2, 3, 255])],
        _ => {
            let of = (way - 5) as u8;
            record(rng, variable_of(types, of), 3 - of)
        }
    }
}

/// A variable of a type, else one that is not there.
fn variable_of(types: &[u8], of: u8) -> usize {
    types.iter().position(|&t| t == of).unwrap_or(types.len())
}
