//! Books whose outcome hangs on yes/no variables: a scope with many of them, and numbers
//! that are a value, empty, conflict, above or below as these are no or yes.

use super::draft::{variables_of, Draft, DraftScope, NUMBER, YES_NO};
use super::random::Random;
use super::sides;

/// A book, and the scope to ask for: the last.
pub struct Branching {
    pub draft: Draft,
    pub scope: usize,
}

/// A book with so many yes/no variables in the scope to ask for; some of them have
/// definitions.
pub fn branching(rng: &mut Random, yes_no: usize) -> Branching {
    let most = if rng.percent(5) { 32 - yes_no } else { 4 };
    let numbers = rng.below(most.min(32 - yes_no) + 1);
    let mut types = vec![YES_NO; yes_no];
    types.resize(yes_no + numbers, NUMBER);
    rng.shuffle(&mut types);
    let mut scope = DraftScope {
        variables: types,
        ..DraftScope::default()
    };
    let mut scopes = Vec::new();
    if rng.percent(40) {
        scopes.push(called(rng));
        scope.subscopes = vec![0; rng.range(1, 2)];
    }
    let chance = rng.pick(&[0, 50, 90, 100]);
    let switches = variables_of(&scope.variables, YES_NO);
    for &v in &switches {
        if rng.percent(chance) {
            let yes = rng.below(2) as u8;
            scope.rule(255, v, 255, yes);
        }
    }
    depend(rng, &mut scope, &switches);
    scopes.push(scope);
    let scope = scopes.len() - 1;
    Branching {
        draft: Draft { scopes },
        scope,
    }
}

/// A scope to call: variable 0 is no, and the number 1 hangs on it.
fn called(rng: &mut Random) -> DraftScope {
    let mut scope = DraftScope {
        variables: vec![YES_NO, NUMBER],
        ..DraftScope::default()
    };
    scope.rule(255, 0, 255, 0);
    let root = by_cases(rng, &mut scope, &[0], 1);
    scope.define(255, 1, 255, root);
    scope
}

/// Defines the numbers: at most two hang on the switches, the others are constants. The
/// last call hands a switch over.
fn depend(rng: &mut Random, scope: &mut DraftScope, switches: &[u8]) {
    let calls = scope.subscopes.len() as u8;
    if let Some(last) = calls.checked_sub(1).filter(|_| !switches.is_empty()) {
        let handed = scope.own(rng.pick(switches));
        scope.define(last, 0, 255, handed);
    }
    let numbers = variables_of(&scope.variables, NUMBER);
    for (i, &v) in numbers.iter().enumerate() {
        let root = match (i, rng.below(4)) {
            (0 | 1, 0) if !switches.is_empty() => {
                by_clauses(rng, scope, switches, v);
                continue;
            }
            (0 | 1, 1) => by_sum(rng, scope, switches),
            (0 | 1, 2) if calls > 0 => scope.subscope(rng.below(calls.into()) as u8, 1),
            (0 | 1, _) => by_cases(rng, scope, switches, 3),
            _ => scope.number(rng.number(20)),
        };
        scope.define(255, v, 255, root);
    }
}

/// A small number mostly; else empty, conflict, or out of range on either side.
fn leaf(rng: &mut Random, scope: &mut DraftScope) -> u8 {
    match rng.below(8) {
        0 => scope.node(&[8, NUMBER]),
        1 => scope.node(&[9, NUMBER]),
        2 | 3 => sides::any(rng, scope),
        _ => scope.number(rng.number(10)),
    }
}

/// An "if" on a switch, with such in its branches down to a depth.
fn by_cases(rng: &mut Random, scope: &mut DraftScope, switches: &[u8], depth: usize) -> u8 {
    if depth == 0 || switches.is_empty() {
        return leaf(rng, scope);
    }
    let condition = scope.own(rng.pick(switches));
    let then = by_cases(rng, scope, switches, depth - 1);
    let other = by_cases(rng, scope, switches, depth - 1);
    scope.node(&[17, condition, then, other])
}

/// Two numbers near an end of the range, or 0, each by a switch, added.
fn by_sum(rng: &mut Random, scope: &mut DraftScope, switches: &[u8]) -> u8 {
    let mut one = || {
        let (yes, no) = (scope.number(rng.number(80)), scope.number(0));
        match switches {
            [] => no,
            _ => {
                let condition = scope.own(rng.pick(switches));
                scope.node(&[17, condition, yes, no])
            }
        }
    };
    let (a, b) = (one(), one());
    scope.node(&[13, a, b])
}

/// Definitions under switches, often one the exception of another: none that holds is
/// empty, two beside each other conflict.
fn by_clauses(rng: &mut Random, scope: &mut DraftScope, switches: &[u8], v: u8) {
    let first = scope.clauses.len() as u8;
    for i in 0..rng.range(1, 4) as u8 {
        let parent = if i > 0 && rng.percent(50) {
            first + rng.below(i.into()) as u8
        } else {
            255
        };
        let condition = match rng.below(4) {
            0 => 255,
            _ => scope.own(rng.pick(switches)),
        };
        let consequence = scope.number(i.into());
        scope
            .clauses
            .push([19, 255, v, parent, condition, consequence]);
    }
}

#[cfg(test)]
mod tests {
    use super::*;
    use crate::judge;

    #[test]
    fn every_book_is_accepted() {
        for seed in 0..2_000 {
            let rng = &mut Random::new(seed);
            let yes_no = rng.range(0, 32);
            let Branching { draft, scope } = branching(rng, yes_no);
            assert_eq!(judge(&draft.bytes()), Ok(scope + 1), "seed {seed}");
            let switches = variables_of(&draft.scopes[scope].variables, YES_NO);
            assert_eq!(switches.len(), yes_no, "seed {seed}");
        }
    }
}
