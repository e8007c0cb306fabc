//! Accepted books of extreme shape: deep, wide, long and heavy; and some too heavy.

use super::books::{book, Plan};
use super::draft::{Draft, DraftScope, CLAUSES, NUMBER, YES_NO};
use super::random::Random;

pub const BOOK: usize = 32_768;

/// A chain of 250 nodes, each the operand of the next.
pub fn deep_nodes(of: u8) -> Draft {
    let mut scope = DraftScope {
        variables: vec![of],
        ..DraftScope::default()
    };
    let mut node = match of {
        YES_NO => scope.constant(true),
        _ => scope.number(i32::MAX),
    };
    while scope.room() > 0 {
        node = scope.node(&[of + 9, node]);
    }
    scope.define(255, 0, 255, node);
    Draft {
        scopes: vec![scope],
    }
}

/// Defaults nested in each other's exceptions, as deep as 250 nodes go.
pub fn deep_defaults(place: usize) -> Draft {
    let mut scope = DraftScope {
        variables: vec![NUMBER],
        ..DraftScope::default()
    };
    let mut node = scope.node(&[8, NUMBER]);
    while scope.room() >= 3 {
        let yes = scope.constant(scope.room().is_multiple_of(2));
        let consequence = scope.node(&[8, NUMBER]);
        let mut body = [255, 255, 255, yes, consequence];
        match place {
            0..=2 => body[place] = node,
            _ => {
                body[0] = consequence;
                body[4] = node;
            }
        }
        node = scope.node(&[&[18], &body[..]].concat());
    }
    scope.define(255, 0, 255, node);
    Draft {
        scopes: vec![scope],
    }
}

/// 128 clauses, each the exception of the one before.
pub fn deep_clauses(rules: bool) -> Draft {
    let mut scope = DraftScope {
        variables: vec![YES_NO],
        ..DraftScope::default()
    };
    for i in 0..CLAUSES as u8 {
        // 122 conditions and 128 consequences make 250 nodes.
        let condition = match i {
            0..=5 => 255,
            _ => scope.constant(i < 100),
        };
        let (kind, consequence) = match rules {
            true => (20, i % 2),
            false => (19, scope.constant(i % 2 == 1)),
        };
        let parent = if i == 0 { 255 } else { i - 1 };
        scope
            .clauses
            .push([kind, 255, 0, parent, condition, consequence]);
    }
    Draft {
        scopes: vec![scope],
    }
}

/// 32 scopes, each calling the next in a given direction, values passed along.
pub fn deep_scopes(upward: bool) -> Draft {
    let mut draft = Draft::default();
    for i in 0..32u8 {
        let last = i == if upward { 31 } else { 0 };
        let mut scope = DraftScope {
            variables: vec![NUMBER, YES_NO],
            ..DraftScope::default()
        };
        let node = if last {
            scope.number(5)
        } else {
            scope.subscopes.push(if upward { i + 1 } else { i - 1 });
            let (read, one) = (scope.subscope(0, 0), scope.number(1));
            scope.rule(0, 1, 255, 1);
            scope.node(&[13, read, one])
        };
        scope.define(255, 0, 255, node);
        scope.rule(255, 1, 255, 0);
        draft.scopes.push(scope);
    }
    draft
}

/// 32 variables, 8 sub-scopes of 32 variables, 128 clauses in descending order.
pub fn wide() -> Draft {
    let mut callee = DraftScope {
        variables: vec![YES_NO; 32],
        ..DraftScope::default()
    };
    let mut caller = DraftScope {
        variables: vec![YES_NO; 32],
        subscopes: vec![1; 8],
        ..DraftScope::default()
    };
    for v in (0..32).rev() {
        callee.rule(255, v, 255, v % 2);
        let read = caller.subscope(v % 8, v);
        caller.define(255, v, 255, read);
    }
    for i in (0..96u8).rev() {
        caller.rule(i % 8, i / 8, 255, 1);
    }
    Draft {
        scopes: vec![caller, callee],
    }
}

/// 128 bases on one target, so many of which hold.
pub fn many_bases(holding: u8) -> Draft {
    let mut scope = DraftScope {
        variables: vec![YES_NO],
        ..DraftScope::default()
    };
    for i in 0..CLAUSES as u8 {
        let condition = scope.constant(i < holding);
        scope.rule(255, 0, condition, 1);
    }
    Draft {
        scopes: vec![scope],
    }
}

/// Fills a draft with nodes that nothing names, and scopes for them, until it has
/// exactly `length` bytes.
pub fn pad(draft: &mut Draft, length: usize) {
    let mut missing = length.saturating_sub(draft.bytes().len());
    let mut at = 0;
    while missing > 0 {
        if at == draft.scopes.len() || missing == 1 || missing == 3 {
            draft.scopes.push(DraftScope::default());
            missing -= 1;
        } else if draft.scopes[at].room() == 0 {
            at += 1;
        } else if missing > 8 || missing == 5 || missing == 7 {
            draft.scopes[at].number(missing as i32);
            missing -= 5;
        } else {
            draft.scopes[at].constant(true);
            missing -= 2;
        }
    }
}

/// A book of exactly 32,768 bytes.
pub fn longest(rng: &mut Random) -> Draft {
    let plan = Plan::large(rng);
    let mut draft = book(rng, plan);
    pad(&mut draft, BOOK);
    draft
}

/// Default nodes with three exceptions, each the first exception of the next.
fn terms_in_terms(scope: &mut DraftScope, count: usize) -> u8 {
    let mut node = scope.constant(true);
    for _ in 0..count {
        let [a, b, c, d] = [(); 4].map(|_| scope.constant(true));
        node = scope.node(&[18, node, a, b, c, d]);
    }
    node
}

/// The condition of the first rule: as many default nodes as a scope has room for, until
/// the book has 32,768 bytes.
fn filling(scope: &mut DraftScope, number: usize) -> u8 {
    match number {
        1..=8 => terms_in_terms(scope, 49),
        9 => {
            let node = terms_in_terms(scope, 7);
            let [a, b, c] = [(); 3].map(|_| scope.constant(true));
            scope.node(&[18, node, a, 255, b, c])
        }
        _ => 255,
    }
}

/// The longest code known of a book: all variables and clauses that there may be, the
/// clauses rules on overrides but for the scope that all others call, and default nodes.
pub fn longest_code() -> Draft {
    let mut called = DraftScope {
        variables: vec![YES_NO; 32],
        ..DraftScope::default()
    };
    for i in 0..CLAUSES as u8 {
        let parent = i.checked_sub(32).unwrap_or(255);
        called.clauses.push([20, 255, i % 32, parent, 255, 1]);
    }
    let mut scopes = vec![called];
    for number in 1..32 {
        let mut scope = DraftScope {
            variables: vec![YES_NO; 32],
            subscopes: vec![0; 8],
            ..DraftScope::default()
        };
        let condition = filling(&mut scope, number);
        scope.rule(0, 0, condition, 1);
        (1..CLAUSES as u8).for_each(|i| scope.rule(i % 8, i / 8, 255, 1));
        scopes.push(scope);
    }
    Draft { scopes }
}

/// Scopes that call the one before them twice: weights 1, 3, 7 to 2^count - 1.
fn doubling(count: usize) -> Draft {
    let calls = |i: usize| vec![i.wrapping_sub(1) as u8; 2 * usize::from(i > 0)];
    let scopes = (0..count).map(|i| DraftScope {
        subscopes: calls(i),
        ..DraftScope::default()
    });
    Draft {
        scopes: scopes.collect(),
    }
}

/// Gives every scope a variable that its caller reads and sets.
fn furnish(rng: &mut Random, draft: &mut Draft) {
    let chance = rng.pick(&[0, 40, 100]);
    for scope in &mut draft.scopes {
        scope.variables.push(NUMBER);
        let node = match scope.subscopes.first() {
            Some(_) => scope.subscope(0, 0),
            None => scope.number(3),
        };
        scope.define(255, 0, 255, node);
        if scope.subscopes.len() > 1 && rng.percent(chance) {
            let handed = scope.number(rng.number(10));
            scope.define(1, 0, 255, handed);
        }
    }
}

/// Numbers the scopes in a random order.
fn renumber(rng: &mut Random, draft: &mut Draft) {
    let mut place: Vec<usize> = (0..draft.scopes.len()).collect();
    rng.shuffle(&mut place);
    draft.permute(&place);
}

/// Scopes of nothing but calls, the last of which weighs exactly 4,096.
pub(super) fn heaviest_calls() -> Draft {
    let mut draft = doubling(12);
    draft.scopes.push(DraftScope {
        subscopes: vec![11],
        ..DraftScope::default()
    });
    draft
}

/// A book whose heaviest scope weighs exactly 4,096.
pub fn heaviest(rng: &mut Random, renumbered: bool) -> Draft {
    let mut draft = heaviest_calls();
    furnish(rng, &mut draft);
    if renumbered {
        renumber(rng, &mut draft);
    }
    draft
}

pub const WEIGHT_WAYS: usize = 4;

/// A weight of 4,097, a doubling too many, and eight calls 32 deep.
pub fn too_heavy(rng: &mut Random, way: usize) -> Draft {
    let mut draft = match way {
        0 | 1 => heaviest(rng, false),
        2 => doubling(rng.range(13, 32)),
        _ => doubling(32),
    };
    match way {
        0 => draft.scopes[12].subscopes.push(0),
        1 => draft.scopes.push(DraftScope {
            subscopes: vec![12],
            ..DraftScope::default()
        }),
        2 => {}
        _ => {
            for scope in &mut draft.scopes[1..] {
                scope.subscopes = vec![scope.subscopes[0]; 8];
            }
        }
    }
    renumber(rng, &mut draft);
    draft
}

#[cfg(test)]
mod tests {
    use super::*;
    use crate::naive::{parse, relations};

    fn heaviest_weight(draft: &Draft) -> u128 {
        let scopes = parse(&draft.bytes()).expect("readable");
        relations::weights(&scopes).into_iter().max().unwrap_or(0)
    }

    #[test]
    fn limits_are_met_exactly() {
        for seed in 0..8 {
            let rng = &mut Random::new(seed);
            assert_eq!(longest(rng).bytes().len(), 32_768);
            assert_eq!(heaviest_weight(&heaviest(rng, true)), 4_096);
            assert_eq!(heaviest_weight(&too_heavy(rng, 0)), 4_097);
            assert_eq!(heaviest_weight(&too_heavy(rng, 1)), 4_097);
        }
        for draft in [deep_nodes(1), deep_nodes(2), deep_clauses(false)] {
            assert_eq!(draft.scopes[0].nodes.len(), 250);
        }
        for draft in [deep_clauses(true), many_bases(1)] {
            assert_eq!(draft.scopes[0].clauses.len(), 128);
        }
        assert_eq!(deep_scopes(true).scopes.len(), 32);
        assert_eq!(wide().scopes[0].clauses.len(), 128);
    }

    #[test]
    fn the_longest_code_has_198709_bytes() {
        let book = longest_code().bytes();
        assert_eq!(book.len(), BOOK);
        assert_eq!(crate::code_of(&book).map(|code| code.len()), Ok(198_709));
    }
}
