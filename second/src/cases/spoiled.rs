//! Compiled code with one thing wrong: a byte changed, cut or inserted, two blocks
//! exchanged, a distance changed by one.

use super::random::Random;
use crate::kind::{self, Stage};
use crate::reader::{Record, Records};

/// How many ways there are.
pub const WAYS: usize = 5;

/// Spoils code in one way. Code that is too short for it is left as it is.
pub fn spoil(rng: &mut Random, code: &mut Vec<u8>, way: usize) {
    let at = rng.below(code.len());
    match way {
        0 if !code.is_empty() => code[at] ^= rng.range(1, 255) as u8,
        1 => code.truncate(at),
        2 => insert(rng, code),
        3 => exchange_blocks(rng, code),
        _ => move_distance(rng, code),
    }
}

fn records(code: &[u8]) -> impl Iterator<Item = Record<'_>> {
    let mut records = Records::of_code(code);
    std::iter::from_fn(move || records.read().ok().flatten())
}

/// Any byte anywhere, or an instruction without a body in front of a record.
fn insert(rng: &mut Random, code: &mut Vec<u8>) {
    let starts: Vec<usize> = records(code).map(|record| record.start).collect();
    if starts.is_empty() || rng.percent(50) {
        code.insert(rng.below(code.len() + 1), rng.byte());
    } else {
        let kinds = [10, 11, 12, 13, 14, 15, 16, 32, 33, 37, 38, 39];
        code.insert(rng.pick(&starts), rng.pick(&kinds));
    }
}

fn exchange_blocks(rng: &mut Random, code: &mut Vec<u8>) {
    let heads = records(code).filter(|record| record.stage == Stage::Scope);
    let mut starts: Vec<usize> = heads.map(|record| record.start).collect();
    starts.push(code.len());
    let blocks = starts.len() - 1;
    if blocks < 2 {
        return;
    }
    let mut order: Vec<usize> = (0..blocks).collect();
    let (a, b) = (rng.below(blocks), rng.below(blocks - 1));
    order.swap(a, if b < a { b } else { b + 1 });
    let block = |&b: &usize| &code[starts[b]..starts[b + 1]];
    *code = order.iter().map(block).collect::<Vec<_>>().concat();
}

fn move_distance(rng: &mut Random, code: &mut [u8]) {
    let branches = records(code).filter(|record| {
        let kind = record.kind;
        matches!(
            kind,
            kind::JUMP..=kind::TRY | kind::SETTLE | kind::JUMP_IF_GIVEN
        )
    });
    let ends: Vec<usize> = branches.map(|r| r.start + 1 + r.body.len()).collect();
    if ends.is_empty() {
        return;
    }
    let end = rng.pick(&ends);
    let distance = u16::from_be_bytes([code[end - 2], code[end - 1]]);
    let moved = match rng.below(2) {
        0 => distance.wrapping_add(1),
        _ => distance.wrapping_sub(1),
    };
    code[end - 2..end].copy_from_slice(&moved.to_be_bytes());
}

#[cfg(test)]
mod tests {
    use super::*;
    use crate::cases::books::any_book;
    use crate::code_of;

    #[test]
    fn every_way_changes_code_and_some_of_it_is_still_accepted() {
        for way in 0..WAYS {
            let (mut changed, mut accepted) = (0, 0);
            for seed in 0..400 {
                let rng = &mut Random::new(seed);
                let whole = code_of(&any_book(rng).bytes()).unwrap_or_default();
                let mut code = whole.clone();
                spoil(rng, &mut code, way);
                changed += usize::from(code != whole);
                accepted += usize::from(crate::code::accept(&code).is_ok());
            }
            assert!(
                changed > 200 && accepted > 0,
                "way {way}: {changed}, {accepted}"
            );
        }
    }
}
