//! Code of weight 4,096 that no compiler wrote and that takes long: nearly all entries are of one block, which is as long as the code may
//! be, and every call hands a value over, so that none is like another that was run before.

use super::assembler::{Assembler, YES};
use super::draft::YES_NO;

/// How often each block calls the one before it: 1, 9, 73, 585 and 4,096 are their weights.
const CALLS: [u8; 5] = [0, 8, 8, 8, 7];

/// The scope of the last block.
pub const SCOPE: usize = CALLS.len() - 1;

/// A constant, and a jump on no to the next instruction.
const WORK: [u8; 5] = [4, 1, 35, 0, 0];

/// Code of at most so many bytes.
pub fn code(length: usize) -> Vec<u8> {
    let mut code = blocks(0);
    let work = length.saturating_sub(code.len()) / WORK.len();
    if work > 0 {
        code = blocks(work);
    }
    code
}

/// The blocks, the first with so much work before its variable is stored.
fn blocks(work: usize) -> Vec<u8> {
    let mut assembler = Assembler::default();
    for (number, &calls) in CALLS.iter().enumerate() {
        let number = number as u8;
        let called = vec![number.saturating_sub(1); usize::from(calls)];
        assembler.block(number, &[YES_NO, YES_NO], &called);
        for call in 0..calls {
            assembler.put(YES);
            assembler.put(&[42, call, 0, 43, call]);
        }
        if calls == 0 {
            (0..work).for_each(|_| assembler.put(&WORK));
        }
        store_unless_given(&mut assembler, 0);
        store_unless_given(&mut assembler, 1);
    }
    assembler.finish()
}

fn store_unless_given(assembler: &mut Assembler, variable: u8) {
    let stored = assembler.label();
    assembler.branch(&[44, variable], stored);
    assembler.put(YES);
    assembler.put(&[41, variable]);
    assembler.land(stored);
}
