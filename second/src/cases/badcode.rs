//! Code that is not accepted, for each cause of refusal 16, and neighbours that are.

use super::Expected;
use crate::examples::hex;

const BAD: Expected = Expected::Refused(16);
const GOOD: Expected = Expected::Accepted;

/// Blocks 0 and 1 with their variables; block 1 calls block 0 twice.
const BLOCKS: &str = "0100 0201 0202 0101 0201 0202 0300 0300";

/// Code behind the two blocks.
const BEHIND: &[(&str, Expected)] = &[
    ("", GOOD),
    // Numbers that name nothing.
    ("0601", GOOD),
    ("0602", BAD),
    ("06ff", BAD),
    ("2901", GOOD),
    ("2902", BAD),
    ("29ff", BAD),
    ("2c010000", GOOD),
    ("2c020000", BAD),
    ("2cff0000", BAD),
    ("070101", GOOD),
    ("070200", BAD),
    ("07ff00", BAD),
    ("070002", BAD),
    ("0700ff", BAD),
    ("2a0101", GOOD),
    ("2a0200", BAD),
    ("2aff00", BAD),
    ("2a0002", BAD),
    ("2a00ff", BAD),
    ("2b01", GOOD),
    ("2b02", BAD),
    ("2bff", BAD),
    // Constants and types outside their values.
    ("0402", BAD),
    ("04ff", BAD),
    ("0102 0200", BAD),
    ("0102 0203", BAD),
    // Scope numbers repeated or above 31; sub-scopes without an earlier block.
    ("011f", GOOD),
    ("0120", BAD),
    ("01ff", BAD),
    ("0100", BAD),
    ("0101", BAD),
    ("0105 0301", GOOD),
    ("0105 0305", BAD),
    ("0105 0304", BAD),
    ("0105 03ff", BAD),
    ("0105 0306 0106", BAD),
    // Stages out of order.
    ("0201", BAD),
    ("26 0201", BAD),
    ("26 0300", BAD),
    ("26 0102 0201", GOOD),
];

/// Code on its own.
const ALONE: &[(&str, Expected)] = &[
    ("", GOOD),
    ("26", BAD),
    ("0201", BAD),
    ("0300", BAD),
    ("0100 0101 0300 0201", BAD),
];

pub fn all() -> Vec<(Vec<u8>, Expected)> {
    let behind = BEHIND
        .iter()
        .map(|&(tail, expected)| (hex(&[BLOCKS, tail].concat()), expected));
    let alone = ALONE.iter().map(|&(code, expected)| (hex(code), expected));
    let mut cases: Vec<_> = alone.chain(behind).collect();
    kinds(&mut cases);
    distances(&mut cases);
    longest_distance(&mut cases);
    limits(&mut cases);
    cases
}

/// Bytes behind each kind known in code, for a block with a variable of each type and
/// two sub-scopes.
fn body_length(kind: u8) -> Option<usize> {
    match kind {
        10..=16 | 32 | 33 | 37..=39 => Some(0),
        1 | 4 | 6 | 41 | 43 => Some(1),
        7 | 34..=36 | 40 | 42 => Some(2),
        44 => Some(3),
        5 => Some(4),
        _ => None,
    }
}

/// Every kind: unknown ones are bad, known ones are bad when truncated.
fn kinds(cases: &mut Vec<(Vec<u8>, Expected)>) {
    let blocks = hex(BLOCKS);
    for kind in (0..=255).filter(|kind| !(2..=3).contains(kind)) {
        let length = body_length(kind);
        let mut code = [&blocks[..], &[kind], &[0; 4][..length.unwrap_or(4)]].concat();
        // The one byte of kind 1 must be a number not used before.
        if kind == 1 {
            code.pop();
            code.push(9);
        }
        let expected = if length.is_some() { GOOD } else { BAD };
        cases.push((code.clone(), expected));
        if length.is_some_and(|length| length > 0) {
            code.pop();
            cases.push((code, BAD));
        }
    }
    cases.push((hex("0100 02"), BAD));
    cases.push((hex("0100 03"), BAD));
}

/// Distances of each kind that has one, before a number of five bytes: only its
/// beginning and its end are good, whatever follows.
fn distances(cases: &mut Vec<(Vec<u8>, Expected)>) {
    let heads: [&[u8]; 5] = [&[34], &[35], &[36], &[40], &[44, 0]];
    let behind: [&[u8]; 2] = [&[], &[1, 7, 38, 38]];
    for head in heads {
        for distance in [0u16, 1, 2, 3, 4, 5, 6, 7, 8, 9, 255, 256, 65_535] {
            let good = distance == 0 || distance == 5;
            for tail in behind {
                let landing = distance.to_be_bytes();
                let number = [5, 0, 0, 0, 1];
                let code = [&[1, 0, 2, 1], head, &landing, &number, tail].concat();
                cases.push((code, if good { GOOD } else { BAD }));
            }
        }
    }
}

/// The longest distance, to the end of a block and past it.
fn longest_distance(cases: &mut Vec<(Vec<u8>, Expected)>) {
    for (count, expected) in [(65_535, GOOD), (65_534, BAD), (65_536, GOOD)] {
        let code = [&[1, 1, 34, 255, 255][..], &[38].repeat(count)].concat();
        cases.push((code, expected));
    }
}

/// 32 variables, 8 sub-scopes, 32 blocks and a weight of 4,096, met and passed.
fn limits(cases: &mut Vec<(Vec<u8>, Expected)>) {
    for (count, expected) in [(32, GOOD), (33, BAD)] {
        cases.push(([vec![1, 0], [2, 1].repeat(count)].concat(), expected));
        let blocks = (0..count as u8).flat_map(|number| [1, number]);
        cases.push((blocks.collect(), expected));
    }
    for (count, expected) in [(8, GOOD), (9, BAD)] {
        let code = [vec![1, 0, 1, 1], [3, 0].repeat(count)].concat();
        cases.push((code, expected));
    }
    let mut chain = vec![1, 0];
    for number in 1..12 {
        chain.extend([1, number, 3, number - 1, 3, number - 1]);
    }
    chain.extend([1, 12, 3, 11]);
    cases.push((chain.clone(), GOOD));
    cases.push(([&chain[..], &[3, 0]].concat(), BAD));
    cases.push(([&chain[..], &[1, 13, 3, 12]].concat(), BAD));
}
