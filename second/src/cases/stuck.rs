//! Code for each way of getting stuck, and for its neighbours that do not.

use super::assembler::{MANY, NOTHING, ONE, YES};
use super::random::Random;
use super::{fallbacks, sides, Expected};
use crate::answer::Outcome;
use crate::examples::hex;

/// Code with the scope asked for, its inputs and the answer.
#[derive(Clone)]
pub struct Directed {
    pub code: Vec<u8>,
    pub scope: usize,
    pub inputs: Vec<u8>,
    pub expected: Expected,
}

const STUCK: Expected = Expected::Refused(17);
const VALUES: Expected = Expected::Ends(Outcome::Values);
const EMPTY: Expected = Expected::Ends(Outcome::Empty);
const CONFLICT: Expected = Expected::Ends(Outcome::Conflict);

/// Code, scope, inputs, answer.
const TABLE: &[(&str, usize, &str, Expected)] = &[
    // An end of try with none open: never opened, closed by 37, closed by a raise,
    // open only in the caller.
    ("0100 25", 0, "-", STUCK),
    ("0100 240000 25 25", 0, "-", STUCK),
    ("0100 240001 20 25", 0, "-", STUCK),
    ("0100 25 0101 0300 240000 2b00", 1, "-", STUCK),
    // A raise closes the tries opened after the one that catches; older ones stay.
    ("0100 240007 240000 240000 20 25", 0, "-", STUCK),
    ("0100 240000 240001 20 25", 0, "-", VALUES),
    ("0100 240000 240001 20 25 25", 0, "-", STUCK),
    // The latest try that lands further on, not the one that lands furthest.
    ("0100 240005 240001 20 21 20", 0, "-", CONFLICT),
    ("0100 240005 240000 20 21 20", 0, "-", EMPTY),
    // A try that lands on the raise itself does not catch, nor change the stack.
    ("0100 0401 240009 230000 240002 0401 20", 0, "-", VALUES),
    // An empty raised with the stack below the height of the try that catches.
    ("0100 0401 240004 230000 20", 0, "-", STUCK),
    ("0100 0201 240009 0401 240003 2900 20 26", 0, "-", STUCK),
    // Below for a while is fine; below without a try that catches is empty.
    ("0100 0401 240006 230000 0401 20", 0, "-", VALUES),
    ("0100 0401 240000 230000 20", 0, "-", EMPTY),
    // A raise drops what is above the height of the try: only the yes is left.
    ("0100 0401 240004 26 26 26 20 230001 21", 0, "-", CONFLICT),
    // A read of what is neither given nor stored, or of a sub-scope not entered.
    ("0100 0201 0600", 0, "-", STUCK),
    ("0100 0201 0600", 0, "010001", VALUES),
    ("0100 0201 0401 2900 0600", 0, "-", VALUES),
    ("0100 0201 0401 2900 0101 0300 070000 2b00", 1, "-", STUCK),
    (
        "0100 0201 2c000004 0401 2900 0101 0300 0400 2a0000 070000 2b00",
        1,
        "-",
        STUCK,
    ),
    (
        "0100 0201 2c000004 0401 2900 0101 0300 0400 2a0000 2b00 070000",
        1,
        "-",
        VALUES,
    ),
    ("0100 0201 0600 0101 0300 0400 2a0000 2b00", 1, "-", VALUES),
    // A store to what is given, by the input list or by the caller.
    ("0100 0201 0401 2900", 0, "010001", STUCK),
    (
        "0100 0201 0401 2900 0101 0300 0400 2a0000 2b00",
        1,
        "-",
        STUCK,
    ),
    ("0100 0201 2900", 0, "010001", STUCK),
    // A second store, a second override, an override after the entry, a second entry.
    ("0100 0201 0401 2900 0400 2900", 0, "-", STUCK),
    (
        "0100 0201 2c000004 0401 2900 0101 0300 0400 2a0000 0400 2a0000 2b00",
        1,
        "-",
        STUCK,
    ),
    (
        "0100 0201 0401 2900 0101 0300 2b00 0400 2a0000",
        1,
        "-",
        STUCK,
    ),
    ("0100 0101 0300 2b00 2b00", 1, "-", STUCK),
    ("0100 0101 0300 0300 2b00 2b01", 1, "-", VALUES),
    // The end of a block with a variable unset or a sub-scope not entered, walked to
    // or landed on by each instruction with a distance.
    ("0100 0201", 0, "-", STUCK),
    ("0100 0201", 0, "010000", VALUES),
    ("0100 0101 0300", 1, "-", STUCK),
    ("0100 0101 0300 220002 2b00", 1, "-", STUCK),
    ("0100 0101 0201 0300 2c000002 2b00", 1, "010001", STUCK),
    ("0100 0201 220004 0401 2900", 0, "-", STUCK),
    ("0100 0201 0400 230004 0401 2900", 0, "-", STUCK),
    ("0100 0201 0401 230004 0401 2900", 0, "-", VALUES),
    ("0100 0201 240005 20 0401 2900", 0, "-", STUCK),
    ("0100 0201 0400 280004 0401 2900", 0, "-", STUCK),
    ("0100 0201 26 280004 0401 2900", 0, "-", VALUES),
    ("0100 220000 0101 21", 0, "-", VALUES),
    // What is left on stack and tries is dropped at the end of a block.
    ("0100 26 240000 0101 0300 2b00 25", 1, "-", STUCK),
    ("0100 0401 0101 0300 2b00 230000", 1, "-", STUCK),
    ("0100 0401 0101 0300 0400 2b00 230001 21", 1, "-", VALUES),
    // A callee's outcome ends the run, caught by no try of the caller.
    ("0100 20 0101 0300 240002 2b00", 1, "-", EMPTY),
    ("0100 21 0101 0300 240002 2b00", 1, "-", CONFLICT),
    ("0100 240001 21", 0, "-", CONFLICT),
    // Arithmetic at the ends of the range, and the order of operands.
    ("0100 0580000001 0b", 0, "-", VALUES),
    ("0100 057ffffffe 0500000001 0d", 0, "-", VALUES),
    ("0100 0580000001 05ffffffff 0d", 0, "-", VALUES),
    ("0100 0580000001 0500000001 0e", 0, "-", VALUES),
    ("0100 05ffffffff 0580000000 0e", 0, "-", VALUES),
    ("0100 0500000001 0500000002 10 230001 21", 0, "-", CONFLICT),
    ("0100 0500000002 0500000001 10 230001 21", 0, "-", VALUES),
];

fn directed(code: Vec<u8>, expected: Expected) -> Directed {
    Directed {
        code,
        scope: 1,
        inputs: Vec::new(),
        expected,
    }
}

/// Everything: the table, each way to leave the range, tries around overrides, each operation
/// on each entry, joins, and the limits.
pub fn all() -> Vec<Directed> {
    let table = TABLE
        .iter()
        .map(|&(code, scope, inputs, expected)| Directed {
            code: hex(code),
            scope,
            inputs: hex(inputs),
            expected,
        });
    let mut cases: Vec<Directed> = table.collect();
    cases.extend(sides::codes());
    cases.extend(fallbacks::codes::codes());
    operations(&mut cases);
    joins(&mut cases);
    stack_limit(&mut cases);
    try_limit(&mut cases);
    cases
}

const ENTRIES: [&[u8]; 4] = [YES, ONE, NOTHING, MANY];

/// Each operation on no, one and two entries of each sort.
fn operations(cases: &mut Vec<Directed>) {
    for kind in [10, 11, 12, 13, 14, 15, 16, 35, 39, 40, 41, 42] {
        operation(cases, kind, &[]);
        for a in 0..4 {
            operation(cases, kind, &[a]);
            (0..4).for_each(|b| operation(cases, kind, &[a, b]));
        }
    }
}

/// The operation in block 1; 41 and 42 store to a variable of each type.
fn operation(cases: &mut Vec<Directed>, kind: u8, entries: &[usize]) {
    let pushes: Vec<u8> = entries.iter().flat_map(|&e| ENTRIES[e]).copied().collect();
    let tail: &[u8] = match kind {
        35 | 40 => &[kind, 0, 0],
        41 => &[41, 0],
        42 => &[42, 0, 0, 43, 0],
        _ => &[kind],
    };
    let types: &[u8] = if kind >= 41 { &[1, 2] } else { &[0] };
    for &of in types {
        let head = match kind {
            41 => vec![1, 1, 2, of],
            42 => vec![1, 0, 2, of, 1, 1, 3, 0],
            _ => vec![1, 1],
        };
        let code = [&head, &pushes, tail].concat();
        cases.push(directed(code, operation_answer(kind, entries, of)));
    }
}

/// What the paper says of an operation on these entries.
fn operation_answer(kind: u8, entries: &[usize], of: u8) -> Expected {
    let wanted: &[&[usize]] = match kind {
        10 | 35 => &[&[0]],
        11 => &[&[1]],
        12 => &[&[0, 0]],
        13 | 14 | 16 => &[&[1, 1]],
        15 => &[&[0, 0], &[1, 1]],
        40 if entries.last() == Some(&3) => return CONFLICT,
        40 => &[&[0], &[1], &[2]],
        39 if entries.len() == 2 => return VALUES,
        41 | 42 if of == 1 => &[&[0]],
        41 | 42 => &[&[1]],
        _ => &[],
    };
    match wanted.iter().any(|top| entries.ends_with(top)) {
        true => VALUES,
        false => STUCK,
    }
}

/// Each join, told apart by settling: a value jumps over the raise of empty.
fn joins(cases: &mut Vec<Directed>) {
    for (a, b) in (0..16).map(|i| (i / 4, i % 4)) {
        let settle: &[u8] = &[39, 40, 0, 1, 32];
        let code = [&[1, 1], ENTRIES[a], ENTRIES[b], settle].concat();
        let expected = match (a, b) {
            (2, 2) => EMPTY,
            (2, 0..=1) | (0..=1, 2) => VALUES,
            _ => CONFLICT,
        };
        cases.push(directed(code, expected));
    }
}

/// A callee with one stored yes/no variable, scope 0.
const CALLEE: &[u8] = &[1, 0, 2, 1, 4, 1, 41, 0];
/// A caller of it with a stored yes/no variable, scope 1.
const CALLER: &[u8] = &[1, 1, 2, 1, 3, 0, 4, 1, 41, 0, 43, 0];

/// 1,024 entries met and passed, by each instruction that pushes.
fn stack_limit(cases: &mut Vec<Directed>) {
    let after = |count: usize, entry: &[u8], tail: &[u8]| {
        [CALLEE, CALLER, &entry.repeat(count), tail].concat()
    };
    let pushing: [&[u8]; 5] = [YES, ONE, &[6, 0], &[7, 0, 0], NOTHING];
    for push in pushing {
        cases.push(directed(after(1_023, YES, push), VALUES));
        cases.push(directed(after(1_024, NOTHING, push), STUCK));
    }
    let taking: [&[u8]; 4] = [&[10], &[12], &[39], &[40, 0, 0]];
    for take in taking {
        cases.push(directed(after(1_024, YES, take), VALUES));
    }
    let full = NOTHING.repeat(1_024);
    nested(cases, &full, NOTHING);
}

/// 512 open tries met and passed; a closed one makes room.
fn try_limit(cases: &mut Vec<Directed>) {
    let tries = [36, 0, 0].repeat(512);
    let with = |tail: &[u8]| [&[1, 1], &tries[..], tail].concat();
    cases.push(directed(with(&[]), VALUES));
    cases.push(directed(with(&[36, 0, 0]), STUCK));
    cases.push(directed(with(&[37, 36, 0, 0]), VALUES));
    cases.push(directed(with(&[37, 36, 0, 0, 36, 0, 0]), STUCK));
    nested(cases, &tries, &[36, 0, 0]);
}

/// A full callee under a full caller is fine; one more in either is stuck.
fn nested(cases: &mut Vec<Directed>, full: &[u8], more: &[u8]) {
    let code = |callee: &[u8], caller: &[u8]| {
        let enter: &[u8] = &[43, 0];
        [&[1, 0], full, callee, &[1, 1, 3, 0], full, enter, caller].concat()
    };
    cases.push(directed(code(&[], &[]), VALUES));
    cases.push(directed(code(more, &[]), STUCK));
    cases.push(directed(code(&[], more), STUCK));
}

/// One of them, sometimes called from a further block with an open try, which
/// changes none of the answers.
pub fn any(rng: &mut Random, cases: &[Directed]) -> Directed {
    let mut case = cases[rng.below(cases.len())].clone();
    if case.inputs.is_empty() && rng.percent(60) {
        let number = rng.range(2, 31) as u8;
        let called = case.scope as u8;
        let outer = [1, number, 3, called, 38, 36, 0, 2, 43, 0];
        case.code.extend(outer);
        case.scope = usize::from(number);
    }
    case
}
