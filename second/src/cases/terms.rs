//! Small terms over every combination of values, empty, conflict, above and below, with
//! the outcome the paper gives them.

use super::draft::{Draft, DraftScope, NUMBER, YES_NO};
use super::random::Random;
use super::sides;
use super::workbench::{over, OPERANDS};
use crate::answer::Outcome;

/// What a part of a term comes to.
pub type Sort = Outcome;

pub const SORTS: [Sort; 5] = Outcome::ALL;

/// A book of one scope with one variable, and the outcome of its evaluation.
pub type Term = (Draft, Outcome);

/// A node of a type that comes to a sort; a yes/no value is `yes`.
pub(super) fn part(scope: &mut DraftScope, of: u8, sort: Sort, yes: bool) -> u8 {
    match (sort, of) {
        (Outcome::Empty, _) => scope.node(&[8, of]),
        (Outcome::Conflict, _) => scope.node(&[9, of]),
        (Outcome::Values, YES_NO) => scope.constant(yes),
        (Outcome::Values, _) => scope.number(7),
        (_, YES_NO) => {
            let (left, right) = (part(scope, NUMBER, sort, yes), scope.number(0));
            over(scope, 16, &[left, right])
        }
        (Outcome::Above | Outcome::Below, _) => sides::leaving(scope, sort),
    }
}

/// A scope with one variable that the last node defines.
fn defined(of: u8, build: impl FnOnce(&mut DraftScope) -> u8) -> Draft {
    let mut scope = DraftScope {
        variables: vec![of],
        ..DraftScope::default()
    };
    let node = build(&mut scope);
    scope.define(255, 0, 255, node);
    Draft {
        scopes: vec![scope],
    }
}

/// All sequences of sorts of a length.
fn sequences(length: usize) -> Vec<Vec<Sort>> {
    let Some(shorter) = length.checked_sub(1) else {
        return vec![Vec::new()];
    };
    let longer = |sorts: Vec<Sort>| SORTS.map(|sort| [&sorts[..], &[sort]].concat());
    sequences(shorter).into_iter().flat_map(longer).collect()
}

/// Every operation on operands of every sort: the first that is no value decides.
fn operations() -> Vec<Term> {
    let mut terms = Vec::new();
    for &(kind, types) in OPERANDS.iter().filter(|&&(kind, _)| kind <= 16) {
        for sorts in sequences(types.len()) {
            let result = if matches!(kind, 11 | 13 | 14) {
                NUMBER
            } else {
                YES_NO
            };
            let draft = defined(result, |scope| {
                let pairs = types.iter().zip(&sorts);
                let parts: Vec<u8> = pairs.map(|(&of, &s)| part(scope, of, s, true)).collect();
                over(scope, kind, &parts)
            });
            terms.push((draft, first_failure(&sorts)));
        }
    }
    terms
}

fn first_failure(sorts: &[Sort]) -> Outcome {
    let failed = sorts.iter().find(|&&sort| sort != Outcome::Values);
    failed.copied().unwrap_or(Outcome::Values)
}

/// "If" with a condition of every sort: it takes one branch.
fn conditionals() -> Vec<Term> {
    let mut terms = Vec::new();
    for sorts in sequences(3) {
        for yes in [false, true] {
            let draft = defined(NUMBER, |scope| {
                let condition = part(scope, YES_NO, sorts[0], yes);
                let then = part(scope, NUMBER, sorts[1], true);
                let other = part(scope, NUMBER, sorts[2], true);
                over(scope, 17, &[condition, then, other])
            });
            let taken = if yes { sorts[1] } else { sorts[2] };
            terms.push((draft, first_failure(&[sorts[0], taken])));
        }
    }
    terms
}

/// A default without exceptions: justification and consequence of every sort.
fn justifications() -> Vec<Term> {
    let mut terms = Vec::new();
    for sorts in sequences(2) {
        for yes in [false, true] {
            let draft = defined(NUMBER, |scope| {
                let justification = part(scope, YES_NO, sorts[0], yes);
                let consequence = part(scope, NUMBER, sorts[1], true);
                over(scope, 18, &[255, 255, 255, justification, consequence])
            });
            let taken = if yes { sorts[1] } else { Outcome::Empty };
            terms.push((draft, first_failure(&[sorts[0], taken])));
        }
    }
    terms
}

/// "The first that is conflict or out of range", on either side, "is the result. Else two
/// or more that are not empty give conflict; exactly one is the result."
fn settled(exceptions: &[Sort], without: Outcome) -> Outcome {
    let stops = |sort: &&Sort| !matches!(sort, Outcome::Values | Outcome::Empty);
    let values = exceptions.iter().filter(|&&s| s == Outcome::Values).count();
    match (exceptions.iter().find(stops), values) {
        (Some(&first), _) => first,
        (None, 0) => without,
        (None, 1) => Outcome::Values,
        (None, _) => Outcome::Conflict,
    }
}

/// Where exceptions stand: in a default node (with gaps), as bases of a target, under
/// a clause, or as rules.
pub const PLACES: usize = 4;

/// Exceptions of given sorts in one of the places; a node holds three at most.
pub fn exceptions(place: usize, sorts: &[Sort]) -> Term {
    match place {
        0 if sorts.len() <= 3 => (node_exceptions(sorts), settled(sorts, Outcome::Values)),
        1 => (clauses(sorts, 255, 19), settled(sorts, Outcome::Empty)),
        2 => (clauses(sorts, 0, 19), settled(sorts, Outcome::Values)),
        _ => (clauses(sorts, 255, 20), settled(sorts, without_rule(sorts))),
    }
}

/// Without any clause there are no rules either, and the tree is empty.
fn without_rule(sorts: &[Sort]) -> Outcome {
    if sorts.is_empty() {
        Outcome::Empty
    } else {
        Outcome::Values
    }
}

fn node_exceptions(sorts: &[Sort]) -> Draft {
    defined(NUMBER, |scope| {
        let mut body = [255; 5];
        // Exceptions stand to the right, a gap before them.
        for (i, &sort) in sorts.iter().enumerate() {
            body[3 - sorts.len() + i] = part(scope, NUMBER, sort, true);
        }
        body[3] = scope.constant(true);
        body[4] = scope.number(5);
        over(scope, 18, &body)
    })
}

/// Clauses of a kind: bases (parent 255), or exceptions to a first clause.
fn clauses(sorts: &[Sort], parent: u8, kind: u8) -> Draft {
    let rules = kind == 20;
    let of = if rules { YES_NO } else { NUMBER };
    let mut scope = DraftScope {
        variables: vec![of],
        ..DraftScope::default()
    };
    if parent == 0 {
        let consequence = scope.number(5);
        scope.define(255, 0, 255, consequence);
    }
    for &sort in sorts {
        let (condition, consequence) = match (rules, sort) {
            (false, _) => (255, part(&mut scope, of, sort, true)),
            // A rule whose condition is no is empty.
            (true, Outcome::Empty) => (scope.constant(false), 1),
            (true, _) => (part(&mut scope, YES_NO, sort, true), 1),
        };
        let clause = [kind, 255, 0, parent, condition, consequence];
        scope.clauses.push(clause);
    }
    Draft {
        scopes: vec![scope],
    }
}

/// All small terms.
pub fn all() -> Vec<Term> {
    let mut terms = operations();
    terms.extend(conditionals());
    terms.extend(justifications());
    for sorts in (0..=4).flat_map(sequences) {
        terms.extend((0..PLACES).map(|place| exceptions(place, &sorts)));
    }
    terms
}

/// Up to a dozen exceptions, mostly empty ones and values.
pub fn any(rng: &mut Random) -> Term {
    let chance = rng.pick(&[2, 10, 25]);
    let sort = |rng: &mut Random| match rng.percent(chance) {
        true => rng.pick(&[Outcome::Conflict, Outcome::Above, Outcome::Below]),
        false => rng.pick(&[Outcome::Empty, Outcome::Empty, Outcome::Values]),
    };
    let sorts: Vec<Sort> = (0..rng.below(12)).map(|_| sort(rng)).collect();
    exceptions(rng.range(1, 3), &sorts)
}
