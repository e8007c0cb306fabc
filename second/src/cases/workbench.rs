//! A small accepted book with one of everything, to which a single fault is added.

use super::draft::{Draft, DraftScope, NUMBER, YES_NO};
use super::random::Random;

/// Number of the callee's and of the caller's scope.
pub const CALLEE: u8 = 0;
pub const CALLER: usize = 1;

/// Types of the operands of kinds 10 to 18, for a default and an "if" of numbers.
pub const OPERANDS: &[(u8, &[u8])] = &[
    (10, &[YES_NO]),
    (11, &[NUMBER]),
    (12, &[YES_NO, YES_NO]),
    (13, &[NUMBER, NUMBER]),
    (14, &[NUMBER, NUMBER]),
    (15, &[NUMBER, NUMBER]),
    (16, &[NUMBER, NUMBER]),
    (17, &[YES_NO, NUMBER, NUMBER]),
    (18, &[NUMBER, NUMBER, NUMBER, YES_NO, NUMBER]),
];

/// Operand positions of all kinds together.
pub const POSITIONS: usize = 20;

/// Kind, operand types and position of the `way`th operand.
pub fn position(way: usize) -> (u8, &'static [u8], usize) {
    let mut before = 0;
    for &(kind, types) in OPERANDS {
        if way < before + types.len() {
            return (kind, types, way - before);
        }
        before += types.len();
    }
    unreachable!("there are {POSITIONS} positions")
}

/// The caller's variable that only `fill` defines.
const FILLED: u8 = 4;

/// A callee with one variable of each type, and a caller that calls it twice.
/// Variables of the caller: 0 and 1 yes/no, 2 and 3 numbers, 4 yes/no.
pub fn workbench() -> Draft {
    let callee = DraftScope {
        variables: vec![YES_NO, NUMBER],
        ..DraftScope::default()
    };
    let caller = DraftScope {
        variables: vec![YES_NO, YES_NO, NUMBER, NUMBER, YES_NO],
        subscopes: vec![CALLEE, CALLEE],
        ..DraftScope::default()
    };
    Draft {
        scopes: vec![callee, caller],
    }
}

/// Puts nodes and clauses in front, so that what follows has high numbers.
pub fn fill(rng: &mut Random, scope: &mut DraftScope) {
    for _ in 0..rng.pick(&[10, 120, 215]) {
        scope.constant(true);
    }
    for _ in 0..rng.pick(&[3, 60, 124]) {
        scope.rule(255, FILLED, 255, 1);
    }
}

/// Number of the caller's variable `index` (0 or 1) of a type.
pub fn variable(of: u8, index: u8) -> u8 {
    (of - 1) * 2 + index
}

/// A fresh leaf of a type that nothing names.
pub fn leaf(rng: &mut Random, scope: &mut DraftScope, of: u8) -> u8 {
    match rng.below(5) {
        0 => scope.node(&[8, of]),
        1 => scope.node(&[9, of]),
        2 => scope.own(variable(of, 0)),
        3 => scope.subscope(0, of - 1),
        _ => constant(scope, of),
    }
}

/// A fresh leaf that reads nothing.
pub fn constant(scope: &mut DraftScope, of: u8) -> u8 {
    match of {
        YES_NO => scope.constant(true),
        _ => scope.number(7),
    }
}

/// Fresh operands of the given types.
pub fn operands(rng: &mut Random, scope: &mut DraftScope, types: &[u8]) -> Vec<u8> {
    types.iter().map(|&of| leaf(rng, scope, of)).collect()
}

/// A node over given operands.
pub fn over(scope: &mut DraftScope, kind: u8, operands: &[u8]) -> u8 {
    let record = [&[kind], operands].concat();
    scope.node(&record)
}

/// Hides a node in a tree of the same type, often where it is never reached.
pub fn bury(rng: &mut Random, scope: &mut DraftScope, node: u8, of: u8) -> u8 {
    let mut node = node;
    for _ in 0..rng.below(4) {
        node = bury_once(rng, scope, node, of);
    }
    node
}

fn bury_once(rng: &mut Random, scope: &mut DraftScope, node: u8, of: u8) -> u8 {
    match rng.below(4) {
        0 => over(scope, of + 9, &[node]),
        1 => {
            let operand = constant(scope, of);
            over(scope, of + 11, &[operand, node])
        }
        2 => {
            let (condition, other) = (scope.constant(true), constant(scope, of));
            over(scope, 17, &[condition, other, node])
        }
        _ => {
            let (justification, other) = (scope.constant(false), constant(scope, of));
            over(scope, 18, &[255, node, 255, justification, other])
        }
    }
}
