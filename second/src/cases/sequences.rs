//! Random code that is accepted and says nothing in particular: valid blocks of any
//! instructions, operands that name what is there, distances that land at an
//! instruction or at the end of the block.

use super::assembler::{Assembler, Label};
use super::handmade::Handmade;
use super::random::Random;

/// A block: its number, its variables' types, its sub-scopes' variables.
struct Block {
    number: u8,
    types: Vec<u8>,
    callees: Vec<usize>,
}

pub fn sequence(rng: &mut Random) -> Handmade {
    let mut numbers: Vec<u8> = (0..32).collect();
    rng.shuffle(&mut numbers);
    let mut out = Assembler::default();
    let mut written: Vec<Block> = Vec::new();
    for &number in &numbers[..rng.range(1, 5)] {
        let types: Vec<u8> = (0..rng.below(5)).map(|_| rng.pick(&[1, 2])).collect();
        let most = if written.is_empty() { 0 } else { rng.below(4) };
        let called: Vec<usize> = (0..most).map(|_| rng.below(written.len())).collect();
        let named: Vec<u8> = called.iter().map(|&b| written[b].number).collect();
        out.block(number, &types, &named);
        let callees = called.iter().map(|&b| written[b].types.len()).collect();
        written.push(Block {
            number,
            types,
            callees,
        });
        instructions(rng, &mut out, &written[written.len() - 1]);
    }
    let asked = rng.below(written.len());
    Handmade {
        code: out.finish(),
        scope: usize::from(written[asked].number),
        types: written.swap_remove(asked).types,
    }
}

/// Some instructions, each with a label in front, and one at the end of the block.
fn instructions(rng: &mut Random, out: &mut Assembler, block: &Block) {
    let most = rng.pick(&[2, 8, 30, 120]);
    let count = rng.below(most);
    let pushing = rng.pick(&[0, 40, 80]);
    let labels: Vec<Label> = (0..=count).map(|_| out.label()).collect();
    for place in 0..count {
        out.land(labels[place]);
        let far = if rng.percent(70) { place + 4 } else { count };
        let to = labels[rng.range(place + 1, far.clamp(place + 1, count))];
        if rng.percent(pushing) {
            push(rng, out);
        } else {
            instruction(rng, out, block, to);
        }
    }
    out.land(labels[count]);
}

fn push(rng: &mut Random, out: &mut Assembler) {
    match rng.below(5) {
        0 => out.put(&[38]),
        1 | 2 => out.put(&[4, rng.below(2) as u8]),
        _ => {
            out.put(&[5]);
            out.put(&rng.number(30).to_be_bytes());
        }
    }
}

/// Any kind; one that has nothing to name is left out.
fn instruction(rng: &mut Random, out: &mut Assembler, block: &Block, to: Label) {
    let kind = rng.pick(&[
        4, 5, 6, 7, 10, 11, 12, 13, 14, 15, 16, 32, 33, 34, 35, 36, 37, 38, 39, 40, 41, 42, 43, 44,
    ]);
    let variables = block.types.len();
    let v = rng.below(variables) as u8;
    let k = rng.below(block.callees.len());
    let theirs = block.callees.get(k).copied().unwrap_or(0);
    let u = rng.below(theirs) as u8;
    match kind {
        4 => out.put(&[4, rng.below(2) as u8]),
        5 => {
            out.put(&[5]);
            out.put(&rng.number(30).to_be_bytes());
        }
        6 | 41 if variables > 0 => out.put(&[kind, v]),
        7 | 42 if theirs > 0 => out.put(&[kind, k as u8, u]),
        43 if !block.callees.is_empty() => out.put(&[43, k as u8]),
        44 if variables > 0 => out.branch(&[44, v], to),
        34..=36 | 40 => out.branch(&[kind], to),
        10..=16 | 32 | 33 | 37..=39 => out.put(&[kind]),
        _ => {}
    }
}
