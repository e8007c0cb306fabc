//! Books of weight 4,096 in which every call hands a value over, another one each time:
//! no entry of a scope comes to the same as an earlier one. The last scope enters all.

use super::draft::{Draft, DraftScope, CLAUSES, NODES, NUMBER, YES_NO};
use super::shapes::heaviest_calls;

/// Scopes of two variables: 0 is handed over, 1 adds up what the sub-scopes come to.
pub fn small() -> Draft {
    let mut draft = heaviest_calls();
    draft.scopes.iter_mut().for_each(hand_over);
    draft
}

/// The same calls between scopes of 32 variables, 250 nodes and 128 clauses.
pub fn full() -> Draft {
    let mut draft = small();
    draft.scopes.iter_mut().for_each(fill);
    draft
}

/// Sub-scope `k` gets twice the own number and `k`, so each entry a number of its own.
fn hand_over(scope: &mut DraftScope) {
    scope.variables = vec![NUMBER; 2];
    let alone = scope.number(1);
    scope.define(255, 0, 255, alone);
    let mut result = None;
    for k in 0..scope.subscopes.len() as u8 {
        let (a, b, more) = (scope.own(0), scope.own(0), scope.number(k.into()));
        let twice = scope.node(&[13, a, b]);
        let handed = scope.node(&[13, twice, more]);
        scope.define(k, 0, 255, handed);
        let read = scope.subscope(k, 1);
        result = Some(result.map_or(read, |sum| scope.node(&[13, sum, read])));
    }
    let result = result.unwrap_or_else(|| scope.own(0));
    scope.define(255, 1, 255, result);
}

/// The first of the yes/no variables that fill a scope, of its numbers, and their end.
const RULED: u8 = 2;
const DEFINED: u8 = 17;
const VARIABLES: u8 = 32;

/// Fills a scope: yes/no variables say whether the number handed over is below a bound,
/// numbers add to it, and exceptions of both take all nodes and clauses that are left.
/// In half of the entries no exception holds, so that each of them is tried.
fn fill(scope: &mut DraftScope) {
    let mut latest = [255; VARIABLES as usize];
    for v in RULED..VARIABLES {
        let (handed, bound) = (scope.own(0), scope.number(256 * i32::from(v)));
        latest[usize::from(v)] = scope.clauses.len() as u8;
        if v < DEFINED {
            scope.variables.push(YES_NO);
            let below = scope.node(&[16, handed, bound]);
            scope.rule(255, v, below, 1);
        } else {
            scope.variables.push(NUMBER);
            let sum = scope.node(&[13, handed, bound]);
            scope.define(255, v, 255, sum);
        }
    }
    for i in 0..(CLAUSES - scope.clauses.len()) as u8 {
        let free = CLAUSES - scope.clauses.len();
        let defined = NODES - scope.nodes.len() > free;
        except(scope, &mut latest, defined, i);
    }
}

/// The exception number `i`, of the latest clause of a number (two nodes) or of a yes/no
/// variable (one): under a yes/no variable, of lower number than the variable itself.
fn except(scope: &mut DraftScope, latest: &mut [u8; 32], defined: bool, i: u8) {
    let v = match defined {
        true => DEFINED + i % (VARIABLES - DEFINED),
        false => RULED + 1 + i % (DEFINED - RULED - 1),
    };
    let condition = scope.own(RULED + i % (v.min(DEFINED) - RULED));
    let (kind, consequence) = match defined {
        true => (19, scope.number(i.into())),
        false => (20, i % 2),
    };
    let parent = &mut latest[usize::from(v)];
    let clause = [kind, 255, v, *parent, condition, consequence];
    *parent = scope.clauses.len() as u8;
    scope.clauses.push(clause);
}

#[cfg(test)]
mod tests {
    use super::*;
    use crate::{evaluate, weights_of, Outcome};

    #[test]
    fn every_entry_is_made_and_ends_in_values() {
        for draft in [small(), full()] {
            let book = draft.bytes();
            assert_eq!(weights_of(&book).map(|weights| weights[12]), Ok(4_096));
            let mut results = [0; 192];
            let answer = evaluate(&book, 12, &[], &mut results).expect("accepted");
            assert_eq!((answer.outcome, answer.count), (Outcome::Values, 4_096));
            let innermost: i32 = (4_096..6_144).sum();
            assert_eq!(results[8..12], innermost.to_be_bytes());
        }
    }

    #[test]
    fn full_scopes_are_full() {
        for scope in full().scopes {
            let counts = [
                scope.variables.len(),
                scope.nodes.len(),
                scope.clauses.len(),
            ];
            assert_eq!(counts, [32, 250, 128]);
        }
    }
}
