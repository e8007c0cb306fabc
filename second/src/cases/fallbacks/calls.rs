//! Several overrides of one call, each of any outcome.

use super::super::draft::{Draft, DraftScope, NUMBER};
use super::super::terms;
use super::empties::{write, Target, Way, WAYS};
use super::{own_part, Fallback};
use crate::answer::Outcome::{self, Empty, Values};

/// An override that comes to an outcome, an empty one in a way.
pub fn override_by(scope: &mut DraftScope, target: Target, sort: Outcome, way: Way) {
    if sort == Empty {
        let no = scope.constant(false);
        return write(scope, target, NUMBER, way, no);
    }
    let node = terms::part(scope, NUMBER, sort, true);
    scope.define(target.0, target.1, 255, node);
}

/// The overrides of one call, in variable order; nothing for a variable without one.
type Sorts = [Option<Outcome>; 3];

/// Three numbers whose own trees come to an outcome, and a caller that overrides them.
fn beside(sorts: Sorts, own: Outcome, way: Way) -> Draft {
    let mut callee = DraftScope {
        variables: vec![NUMBER; 3],
        ..DraftScope::default()
    };
    let mut caller = DraftScope {
        variables: vec![NUMBER; 3],
        subscopes: vec![0],
        ..DraftScope::default()
    };
    for (v, sort) in (0..).zip(sorts) {
        let node = own_part(&mut callee, NUMBER, own, true);
        callee.define(255, v, 255, node);
        if let Some(sort) = sort {
            override_by(&mut caller, (0, v), sort, way);
        }
        let read = caller.subscope(0, v);
        caller.define(255, v, 255, read);
    }
    Draft {
        scopes: vec![callee, caller],
    }
}

/// "Conflict, above and below in an override still end the run", the first of them, empty
/// ones passed over; else a variable without a value uses its own tree.
fn ending(sorts: Sorts, own: Outcome) -> Outcome {
    let stops = |sort: &Outcome| !matches!(sort, Values | Empty);
    let uses_own = sorts.iter().any(|sort| *sort != Some(Values));
    let first = sorts.into_iter().flatten().find(stops);
    first.unwrap_or(if uses_own { own } else { Values })
}

/// The first override that is no value ended the run.
fn former_ending(sorts: Sorts, own: Outcome) -> Outcome {
    let first = sorts.into_iter().flatten().find(|&sort| sort != Values);
    first.unwrap_or_else(|| ending(sorts, own))
}

/// Every three overrides of one call, each missing or of any outcome.
pub fn calls() -> Vec<Fallback> {
    let sorts: Vec<Option<Outcome>> = [None].into_iter().chain(Outcome::ALL.map(Some)).collect();
    let mut all = Vec::new();
    for i in 0..sorts.len().pow(3) {
        let three = [sorts[i / 36], sorts[i / 6 % 6], sorts[i % 6]];
        for (own, way) in Outcome::ALL.into_iter().zip(WAYS.iter().cycle().skip(i)) {
            let (ends, former) = (ending(three, own), former_ending(three, own));
            all.push(Fallback::new(beside(three, own, *way), ends, former));
        }
    }
    all
}
