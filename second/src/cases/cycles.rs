//! Scopes that reach themselves, and steps that depend on themselves.

use super::draft::{Draft, DraftScope, NUMBER, YES_NO};
use super::random::Random;
use super::workbench::{bury, constant, over};

pub const SCOPE_WAYS: usize = 4;
pub const STEP_WAYS: usize = 10;

/// Cycles of one, two and more scopes, and a cycle with scopes leading to it.
pub fn scopes(rng: &mut Random, way: usize) -> Draft {
    let length = match way {
        0 => 1,
        1 => 2,
        _ => rng.range(3, 12),
    };
    let leading = if way == 3 { rng.range(1, 6) } else { 0 };
    let mut draft = Draft::default();
    for i in 0..length + leading {
        let next = if i < length { (i + 1) % length } else { i - 1 };
        draft.scopes.push(DraftScope {
            variables: vec![YES_NO; rng.below(3)],
            subscopes: vec![next as u8],
            ..DraftScope::default()
        });
    }
    let mut place: Vec<usize> = (0..draft.scopes.len()).collect();
    rng.shuffle(&mut place);
    draft.permute(&place);
    draft
}

/// A callee with two variables and a caller with plenty, all of one type.
fn bench(of: u8, subscopes: usize) -> Draft {
    let callee = DraftScope {
        variables: vec![of, of],
        ..DraftScope::default()
    };
    let caller = DraftScope {
        variables: vec![of; 12],
        subscopes: vec![0; subscopes],
        ..DraftScope::default()
    };
    Draft {
        scopes: vec![callee, caller],
    }
}

/// Steps in a cycle; each reads the next.
pub fn steps(rng: &mut Random, way: usize) -> Draft {
    let of = match way {
        9 => YES_NO,
        _ => rng.pick(&[YES_NO, NUMBER]),
    };
    let mut draft = bench(of, rng.range(2, 8));
    let calls = draft.scopes[1].subscopes.len();
    let scope = &mut draft.scopes[1];
    if rng.percent(25) {
        (0..rng.below(100)).for_each(|_| {
            constant(scope, of);
        });
    }
    let mut variables: Vec<Step> = (0..12).map(Step::Variable).collect();
    let mut subscopes: Vec<Step> = (0..calls as u8).map(Step::Call).collect();
    rng.shuffle(&mut variables);
    rng.shuffle(&mut subscopes);
    let cycle = match way {
        0 | 6..=9 => variables[..1].to_vec(),
        1 => variables[..2].to_vec(),
        2 => variables[..rng.range(3, 12)].to_vec(),
        3 => subscopes[..1].to_vec(),
        4 => vec![variables[0], subscopes[0]],
        _ => {
            let mut both = [&variables[..rng.range(1, 8)], &subscopes[..2]].concat();
            rng.shuffle(&mut both);
            both
        }
    };
    for (i, &step) in cycle.iter().enumerate() {
        let next = cycle[(i + 1) % cycle.len()];
        let read = read(rng, scope, next);
        link(rng, scope, of, step, read, way);
    }
    draft
}

#[derive(Clone, Copy)]
enum Step {
    Variable(u8),
    Call(u8),
}

fn read(rng: &mut Random, scope: &mut DraftScope, step: Step) -> u8 {
    match step {
        Step::Variable(v) => scope.own(v),
        Step::Call(k) => scope.subscope(k, rng.below(2) as u8),
    }
}

/// Makes a step depend on a read, in one of its clauses.
fn link(rng: &mut Random, scope: &mut DraftScope, of: u8, step: Step, read: u8, way: usize) {
    let (subscope, variable) = match step {
        Step::Variable(v) => (255, v),
        Step::Call(k) => (k, rng.below(2) as u8),
    };
    let read = bury(rng, scope, read, of);
    match way {
        // In a branch that is never taken.
        6 => {
            let (condition, other) = (scope.constant(true), constant(scope, of));
            let node = over(scope, 17, &[condition, other, read]);
            scope.define(subscope, variable, 255, node);
        }
        // In a condition.
        7 => {
            let other = constant(scope, of);
            let condition = over(scope, 15, &[read, other]);
            let consequence = constant(scope, of);
            scope.define(subscope, variable, condition, consequence);
        }
        // In an exception to an exception.
        8 => {
            for parent in [255, 0, 1] {
                let node = if parent == 1 {
                    read
                } else {
                    constant(scope, of)
                };
                scope.define(subscope, variable, 255, node);
                scope.clauses.last_mut().expect("a clause")[3] = parent;
            }
        }
        // In the condition of a rule.
        9 => scope.rule(subscope, variable, read, 1),
        _ => scope.define(subscope, variable, 255, read),
    }
}
