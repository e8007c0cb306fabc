//! Code of a megabyte: linear to judge and to run, or refused at its end.

use super::random::Random;
use super::{Case, Expected, Service};
use crate::answer::Outcome;

const MEGABYTE: usize = 1 << 20;

/// A block 0 of one record again and again, a megabyte of it.
fn repeated(record: &[u8]) -> Vec<u8> {
    [&[1, 0], &record.repeat(MEGABYTE / record.len())[..]].concat()
}

fn behind(mut code: Vec<u8>, tail: &[u8]) -> Vec<u8> {
    code.extend(tail);
    code
}

/// Jumps of the longest distance, each over 21,845 others.
fn far_jumps() -> Vec<u8> {
    let over = 21_845;
    let count = MEGABYTE / 3 - over;
    let far = [34, 255, 255].repeat(count);
    [&[1, 0][..], &far, &[34, 0, 0].repeat(over)].concat()
}

/// 32 blocks, each entering the one before and then leaving much on its stack.
fn chain_of_blocks() -> Vec<u8> {
    let mut code = Vec::new();
    for number in 0..32u8 {
        code.extend([1, number]);
        if let Some(callee) = number.checked_sub(1) {
            code.extend([3, callee, 43, 0]);
        }
        code.extend([4, 1, 35, 0, 0].repeat(MEGABYTE / 32 / 5));
        code.extend([38].repeat(1_000));
    }
    code
}

/// All of them, with the answer.
pub fn long() -> Vec<Case> {
    let rng = &mut Random::new(1);
    let calm = || repeated(&[4, 1, 35, 0, 0]);
    let [values, empty, conflict] =
        [Outcome::Values, Outcome::Empty, Outcome::Conflict].map(Expected::Ends);
    let [bad, stuck] = [16, 17].map(Expected::Refused);
    let block_of_anything = [vec![1, 0], rng.bytes(MEGABYTE)].concat();
    let table = [
        ("entries taken", calm(), values),
        ("entries left", repeated(&[38]), stuck),
        ("raises caught", repeated(&[36, 0, 1, 32]), values),
        ("tries left open", repeated(&[36, 0, 0]), stuck),
        ("tries ended", repeated(&[36, 0, 0, 37]), values),
        ("joins", repeated(&[38, 38, 39, 40, 0, 0]), values),
        ("far jumps", far_jumps(), values),
        ("32 blocks", chain_of_blocks(), values),
        ("cut at its end", behind(calm(), &[5, 0]), bad),
        ("unknown kind at its end", behind(calm(), &[99]), bad),
        ("bad constant at its end", behind(calm(), &[4, 2]), bad),
        ("bad distance at its end", behind(calm(), &[34, 0, 1]), bad),
        ("conflict at its end", behind(calm(), &[33]), conflict),
        ("empty at its end", behind(calm(), &[32]), empty),
        ("stuck at its end", behind(calm(), &[37]), stuck),
        ("anything", rng.bytes(MEGABYTE), bad),
        ("a block of anything", block_of_anything, bad),
    ];
    let case = |(label, code, expected): (&'static str, Vec<u8>, Expected)| {
        let scope = if label == "32 blocks" { 31 } else { 0 };
        Case::new(label, Service::Run, code)
            .expecting(expected)
            .asking(scope, Vec::new(), 0)
    };
    table.into_iter().map(case).collect()
}

#[cfg(test)]
mod tests {
    #[test]
    fn every_answer_is_as_expected() {
        for case in super::long() {
            assert!(case.bytes.len() > 1_000_000, "{}", case.label);
            assert!(case.is_expected(case.reply().result), "{}", case.label);
        }
    }
}
