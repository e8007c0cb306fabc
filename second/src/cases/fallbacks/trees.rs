//! Trees of every shape as overrides.

use super::super::draft::{Draft, DraftScope, CLAUSES, NUMBER, YES_NO};
use super::super::{deepest, shapes, terms};
use super::{alone, Fallback};
use crate::answer::Outcome::{self, Empty, Values};
use crate::evaluate;

/// The tree of a lone scope's variable 0 as an override of a sub-scope's. The variable of
/// the caller reads it where there is room for that.
fn as_override(lone: &DraftScope, own: Outcome, yes: bool) -> Draft {
    let of = lone.variables[0];
    let mut caller = DraftScope {
        subscopes: vec![0],
        ..lone.clone()
    };
    caller.variables.clear();
    for clause in &mut caller.clauses {
        clause[1] = 0;
    }
    if caller.room() > 0 && caller.clauses.len() < CLAUSES {
        caller.variables.push(of);
        let read = caller.subscope(0, 0);
        caller.define(255, 0, 255, read);
    }
    Draft {
        scopes: vec![alone(of, own, yes), caller],
    }
}

/// A tree that comes to an outcome, as an override.
fn overriding((draft, outcome): &terms::Term, own: Outcome, yes: bool) -> Fallback {
    let ends = if *outcome == Empty { own } else { *outcome };
    Fallback::new(as_override(&draft.scopes[0], own, yes), ends, *outcome)
}

/// Own trees of every outcome, where it is a value of no and of yes.
fn owns() -> impl Iterator<Item = (Outcome, bool)> + Clone {
    let each = |yes| Outcome::ALL.into_iter().map(move |own| (own, yes));
    each(false).chain(each(true))
}

/// Every small term as an override, rules that do not hold among them; those without a
/// clause are none.
pub fn small_terms() -> Vec<Fallback> {
    let terms = terms::all().into_iter();
    let terms = terms.filter(|(draft, _)| !draft.scopes[0].clauses.is_empty());
    let paired = terms.zip(owns().cycle());
    let all = paired.map(|(term, (own, yes))| overriding(&term, own, yes));
    all.collect()
}

/// The deepest and the widest trees as overrides.
pub fn largest() -> Vec<Fallback> {
    let mut drafts = vec![shapes::deep_nodes(YES_NO), shapes::deep_nodes(NUMBER)];
    drafts.extend((0..4).map(shapes::deep_defaults));
    drafts.extend([false, true].map(shapes::deep_clauses));
    drafts.extend([0, 1, 2, 128].map(shapes::many_bases));
    drafts.extend(deepest::CHAINS.map(deepest::book));
    let terms = drafts.into_iter().map(|draft| {
        let answer = evaluate(&draft.bytes(), 0, &[], &mut [0; 6]);
        let outcome = answer.expect("an accepted book").outcome;
        (draft, outcome)
    });
    let all = terms.flat_map(|term| [false, true].map(|yes| overriding(&term, Values, yes)));
    all.collect()
}
