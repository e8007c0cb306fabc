//! Every operator leaving the range on every side that it has, in a definition, an
//! exception of a clause or of a default node, an override and a callee; and in code.

use super::draft::{Draft, DraftScope, NUMBER, YES_NO};
use super::fixed::lone;
use super::random::Random;
use super::stuck::Directed;
use super::workbench::over;
use super::{Case, Expected, Service};
use crate::answer::Outcome::{self, Above, Below};
use crate::value::Place;

/// An operator, operands whose exact result is out of range, and the side of it.
pub type Way = (u8, &'static [i32], Outcome);

const MIN: i32 = i32::MIN;
const MAX: i32 = i32::MAX;

pub const WAYS: [Way; 13] = [
    (11, &[MIN], Above),
    (13, &[MAX, 1], Above),
    (13, &[1, MAX], Above),
    (13, &[MAX, MAX], Above),
    (14, &[MAX, -1], Above),
    (14, &[0, MIN], Above),
    (14, &[MAX, MIN], Above),
    (13, &[MIN, -1], Below),
    (13, &[-1, MIN], Below),
    (13, &[MIN, MIN], Below),
    (14, &[MIN, 1], Below),
    (14, &[-2, MAX], Below),
    (14, &[MIN, MAX], Below),
];

/// The ways to one side.
fn ways(side: Outcome) -> impl Iterator<Item = Way> + Clone {
    WAYS.into_iter().filter(move |&(_, _, of)| of == side)
}

/// A node that leaves the range.
fn node(scope: &mut DraftScope, (kind, operands, _): Way) -> u8 {
    let operands: Vec<u8> = operands.iter().map(|&n| scope.number(n)).collect();
    over(scope, kind, &operands)
}

/// A node that leaves the range on a side.
pub fn leaving(scope: &mut DraftScope, side: Outcome) -> u8 {
    let way = ways(side).next().expect("a side of the range");
    node(scope, way)
}

/// A node that leaves the range in any way.
pub fn any(rng: &mut Random, scope: &mut DraftScope) -> u8 {
    node(scope, rng.pick(&WAYS))
}

/// Above where variable 0 is yes, below where it is no.
fn by_switch(scope: &mut DraftScope, [above, below]: [Way; 2]) -> u8 {
    let condition = scope.own(0);
    let (then, other) = (node(scope, above), node(scope, below));
    scope.node(&[17, condition, then, other])
}

/// Bytes of the results of a yes/no variable and a number.
const RESULTS: usize = 9;

/// A scope with a switch and a number that nothing defines yet.
fn blank() -> DraftScope {
    DraftScope {
        variables: vec![YES_NO, NUMBER],
        ..DraftScope::default()
    }
}

/// The number leaves the range in its definition, or in an exception of it.
fn defined(place: Option<Place>, pair: [Way; 2]) -> DraftScope {
    let mut scope = blank();
    let mut node = by_switch(&mut scope, pair);
    if place == Some(Place::NodeException) {
        let (justification, consequence) = (scope.constant(true), scope.number(5));
        node = scope.node(&[18, 255, node, 255, justification, consequence]);
    }
    if place == Some(Place::ClauseException) {
        let consequence = scope.number(5);
        scope.define(255, 1, 255, consequence);
        scope.clauses.push([19, 255, 1, 0, 255, node]);
    } else {
        scope.define(255, 1, 255, node);
    }
    scope
}

/// The number is read from a callee that leaves the range, or that would if the override
/// of its number did not leave it before.
fn called(place: Option<Place>, pair: [Way; 2]) -> Draft {
    let mut caller = blank();
    caller.subscopes = vec![0];
    let switch = caller.own(0);
    caller.define(0, 0, 255, switch);
    if place == Some(Place::Override) {
        let handed = by_switch(&mut caller, pair);
        caller.define(0, 1, 255, handed);
    }
    let read = caller.subscope(0, 1);
    caller.define(255, 1, 255, read);
    Draft {
        scopes: vec![defined(None, pair), caller],
    }
}

/// Where the range is left: in a definition, or in one of the places that trees show.
const PLACES: [Option<Place>; 5] = [
    None,
    Some(Place::ClauseException),
    Some(Place::NodeException),
    Some(Place::Override),
    Some(Place::Call),
];

/// The last scope is the one to ask for.
fn book(place: Option<Place>, pair: [Way; 2]) -> Draft {
    match place {
        Some(Place::Override | Place::Call) => called(place, pair),
        _ => lone(defined(place, pair)),
    }
}

/// A book for each way in each place.
fn books() -> impl Iterator<Item = Draft> {
    let pairs = ways(Above).zip(ways(Below).cycle());
    pairs.flat_map(|(above, below)| PLACES.map(|place| book(place, [above, below])))
}

/// Each book evaluated with the switch at no and at yes.
pub fn evaluations() -> Vec<Case> {
    let mut cases = Vec::new();
    for draft in books() {
        for (yes, side) in [(0, Below), (1, Above)] {
            let case = Case::new("out of range", Service::Evaluate, draft.bytes());
            let case = case.asking(draft.scopes.len() - 1, vec![1, 0, yes], RESULTS);
            cases.push(case.expecting(Expected::Ends(side)));
        }
    }
    cases
}

/// Each book tabulated over its switch: a row below, then one above.
pub fn tables() -> Vec<Case> {
    let table = |draft: Draft| {
        let case = Case::new("out of range, tabulated", Service::Tabulate, draft.bytes());
        let case = case.asking(draft.scopes.len() - 1, Vec::new(), 2 * (1 + RESULTS));
        case.choosing(vec![0]).expecting(Expected::Accepted)
    };
    books().map(table).collect()
}

/// Code that leaves the range in each way: alone, under an open try, before an override,
/// and in a callee under a try of its caller.
pub fn codes() -> Vec<Directed> {
    WAYS.into_iter().flat_map(code).collect()
}

/// The instructions of a way.
fn instructions((kind, operands, _): Way) -> Vec<u8> {
    let mut code = Vec::new();
    for n in operands {
        code.push(5);
        code.extend(n.to_be_bytes());
    }
    code.push(kind);
    code
}

/// Instructions that leave the range in any way.
pub fn any_instructions(rng: &mut Random) -> Vec<u8> {
    instructions(rng.pick(&WAYS))
}

fn code(way: Way) -> [Directed; 4] {
    let leaving = instructions(way);
    let pieces: [[&[u8]; 3]; 4] = [
        [&[1, 1], &leaving, &[]],
        [&[1, 1, 36, 0, leaving.len() as u8], &leaving, &[]],
        [&[1, 0, 2, 2, 1, 1, 3, 0], &leaving, &[42, 0, 0, 43, 0]],
        [&[1, 0], &leaving, &[1, 1, 3, 0, 36, 0, 2, 43, 0]],
    ];
    pieces.map(|code| Directed {
        code: code.concat(),
        scope: 1,
        inputs: Vec::new(),
        expected: Expected::Ends(way.2),
    })
}
