//! Random books in which overrides are often empty: callers over one another, each with a
//! few overrides in its calls.

use super::super::draft::{variables_of, Draft, DraftScope, NUMBER, YES_NO};
use super::super::random::Random;
use super::super::terms;
use super::empties::{write, Target, WAYS};
use crate::answer::Outcome;

/// Most callers over one another.
const DEPTH: usize = 3;

/// The first yes/no variables of a scope, which conditions read.
const SWITCHES: u8 = 2;

pub fn any(rng: &mut Random) -> Draft {
    let mut scopes: Vec<DraftScope> = Vec::new();
    for number in 0..=rng.range(1, DEPTH) {
        let mut scope = switched(rng);
        let called = number.checked_sub(1);
        let types = called.map_or(Vec::new(), |called| scopes[called].variables.clone());
        if let Some(called) = called {
            scope.subscopes = vec![called as u8; rng.range(1, 2)];
            call(rng, &mut scope, &types);
        }
        define(rng, &mut scope, &types);
        scopes.push(scope);
    }
    Draft { scopes }
}

/// Mostly what is wanted, seldom a conflict or out of range.
fn outcome(rng: &mut Random, mostly: Outcome) -> Outcome {
    match rng.percent(90) {
        true => mostly,
        false => rng.pick(&[Outcome::Conflict, Outcome::Above, Outcome::Below]),
    }
}

/// Switches with a rule, and a few variables behind them.
fn switched(rng: &mut Random) -> DraftScope {
    let mut scope = DraftScope {
        variables: vec![YES_NO; SWITCHES.into()],
        ..DraftScope::default()
    };
    for switch in 0..SWITCHES {
        let yes = rng.below(2) as u8;
        scope.rule(255, switch, 255, yes);
    }
    let more = rng.range(1, 3);
    scope
        .variables
        .extend((0..more).map(|_| rng.pick(&[YES_NO, NUMBER])));
    scope
}

/// A node that mostly has a value.
fn part(rng: &mut Random, scope: &mut DraftScope, of: u8) -> u8 {
    match (outcome(rng, Outcome::Values), of) {
        (Outcome::Values, NUMBER) => scope.number(rng.number(5)),
        (sort, _) => terms::part(scope, of, sort, rng.percent(50)),
    }
}

/// The variables behind the switches: read from a sub-scope, whose variables have these
/// types, or a value, or empty.
fn define(rng: &mut Random, scope: &mut DraftScope, types: &[u8]) {
    for v in SWITCHES..scope.variables.len() as u8 {
        let of = scope.variables[usize::from(v)];
        let fitting = variables_of(types, of);
        let node = match rng.below(10) {
            0 => scope.node(&[8, of]),
            1..=7 if !fitting.is_empty() => {
                let k = rng.below(scope.subscopes.len()) as u8;
                scope.subscope(k, rng.pick(&fitting))
            }
            _ => part(rng, scope, of),
        };
        scope.define(255, v, 255, node);
    }
}

/// Overrides of most variables of each sub-scope.
fn call(rng: &mut Random, scope: &mut DraftScope, types: &[u8]) {
    for k in 0..scope.subscopes.len() as u8 {
        for (v, &of) in (0..).zip(types) {
            if rng.percent(70) {
                override_variable(rng, scope, (k, v), of);
            }
        }
    }
}

/// A rule, a value, what fails, or in one of the ways a value or empty.
fn override_variable(rng: &mut Random, scope: &mut DraftScope, target: Target, of: u8) {
    let (k, v) = target;
    let condition = condition(rng, scope, k);
    match rng.below(10) {
        0 | 1 if of == YES_NO => scope.rule(k, v, condition, rng.below(2) as u8),
        0..=2 => {
            let node = part(rng, scope, of);
            scope.define(k, v, 255, node);
        }
        3 => {
            let sort = outcome(rng, Outcome::Empty);
            let node = terms::part(scope, of, sort, true);
            scope.define(k, v, 255, node);
        }
        _ => write(scope, target, of, rng.pick(&WAYS), condition),
    }
}

/// A constant, a switch, or a switch of an earlier sub-scope.
fn condition(rng: &mut Random, scope: &mut DraftScope, k: u8) -> u8 {
    let switch = rng.below(SWITCHES.into()) as u8;
    match rng.below(4) {
        0 => scope.constant(rng.percent(30)),
        1 if k > 0 => scope.subscope(0, switch),
        _ => scope.own(switch),
    }
}

#[cfg(test)]
mod tests {
    use super::*;
    use crate::judge;

    #[test]
    fn every_book_is_accepted() {
        for seed in 0..2_000 {
            let draft = any(&mut Random::new(seed));
            let scopes = draft.scopes.len();
            assert_eq!(judge(&draft.bytes()), Ok(scopes), "seed {seed}");
        }
    }
}
