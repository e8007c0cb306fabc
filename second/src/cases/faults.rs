//! Books with exactly one fault, for each of refusals 1 to 12, each in several ways.

use super::books::{book, Plan};
use super::draft::{Draft, DraftScope, CLAUSES, NODES, NUMBER, YES_NO};
use super::random::Random;
use super::workbench::{
    bury, constant, fill, leaf, operands, over, position, variable, workbench, CALLER, POSITIONS,
};
use super::{cycles, shapes};

/// How many ways there are for each refusal, from 1 on.
pub const WAYS: [usize; 12] = [
    19,
    4,
    19 + 6,
    6,
    5,
    POSITIONS + 14,
    POSITIONS * 2 + 5,
    POSITIONS + 9,
    8,
    cycles::SCOPE_WAYS,
    shapes::WEIGHT_WAYS,
    cycles::STEP_WAYS,
];

/// A book with one fault, standing before, between or behind faultless scopes.
pub fn fault(rng: &mut Random, number: u8, way: usize) -> Vec<u8> {
    match number {
        1 => truncated(rng, way),
        2 => unknown_kind(rng, way),
        3 => out_of_order(rng, way),
        4 => limit_exceeded(rng, way),
        5 => invalid_byte(rng, way),
        11 => shapes::too_heavy(rng, way).bytes(),
        _ => {
            let draft = faulty_scopes(rng, number, way);
            surround(rng, draft)
        }
    }
}

/// Scopes with a fault that is found over the whole book.
fn faulty_scopes(rng: &mut Random, number: u8, way: usize) -> Draft {
    let mut draft = workbench();
    let scope = &mut draft.scopes[CALLER];
    if rng.percent(25) {
        fill(rng, scope);
    }
    match number {
        6 => dangling(rng, scope, way),
        7 => shared(rng, scope, way),
        8 => mismatch(rng, scope, way),
        9 => mixed(scope, way),
        10 => return cycles::scopes(rng, way),
        11 => return shapes::too_heavy(rng, way),
        _ => return cycles::steps(rng, way),
    }
    draft
}

/// A book with two faults, and the refusal that must come first. Faults 2 to 5 stand
/// in front, in this order, a truncated record at the end: of 1 to 5 the earlier
/// record decides, and before any other; of 6 to 12 the lower number.
pub fn two_faults(rng: &mut Random, first: u8, second: u8) -> (Vec<u8>, u8) {
    let numbers = [first, second];
    let mut front = Vec::new();
    let mut middle = Draft::default();
    let mut end = Vec::new();
    for number in numbers {
        let ways = WAYS[usize::from(number) - 1];
        // Of cycles and weights only those with few scopes.
        let way = rng.below(if number == 10 || number == 11 {
            2
        } else {
            ways
        });
        match number {
            1 => end = truncated(rng, way),
            2 => front.extend(unknown_kind(rng, way)),
            3 => front.extend(out_of_order(rng, way)),
            4 => front.extend(limit_exceeded(rng, 5)),
            5 => front.extend(invalid_byte(rng, way)),
            _ => middle.append(faulty_scopes(rng, number, way)),
        }
    }
    let bytes = [front, middle.bytes(), end].concat();
    let earliest = numbers.into_iter().find(|number| (2..=5).contains(number));
    (bytes, earliest.unwrap_or(first.min(second)))
}

/// Puts accepted scopes before and behind.
fn surround(rng: &mut Random, middle: Draft) -> Vec<u8> {
    let mut draft = host(rng);
    draft.append(middle);
    draft.append(host(rng));
    draft.bytes()
}

fn host(rng: &mut Random) -> Draft {
    match rng.below(2) {
        0 => Draft::default(),
        _ => {
            let plan = Plan::tiny(rng);
            book(rng, plan)
        }
    }
}

/// Bodies that are good in a scope with a yes/no variable and a constant.
fn good_record(kind: u8) -> Vec<u8> {
    let body: &[u8] = match kind {
        1 => &[],
        2 | 4 | 8 | 9 => &[1],
        5 => &[0, 0, 0, 1],
        7 | 12..=16 => &[0, 0],
        17 => &[0, 0, 0],
        18 => &[255, 255, 255, 0, 0],
        19 => &[255, 0, 255, 255, 0],
        20 => &[255, 0, 255, 255, 1],
        _ => &[0],
    };
    [&[kind], body].concat()
}

/// One way for each kind with a body.
fn truncated(rng: &mut Random, way: usize) -> Vec<u8> {
    let record = good_record(way as u8 + 2);
    let length = rng.range(1, record.len() - 1);
    let mut bytes = host(rng).bytes();
    bytes.push(1);
    bytes.extend(&record[..length]);
    bytes
}

/// An unknown kind at the beginning of any record, or behind the last.
fn unknown_kind(rng: &mut Random, way: usize) -> Vec<u8> {
    let mut records = host(rng).records();
    let kind = match way {
        0 => 0,
        1 => 21,
        2 => 255,
        _ => rng.range(21, 255) as u8,
    };
    let at = rng.range(0, records.len());
    records.insert(at, vec![kind]);
    records.concat()
}

/// A record of each kind before the first scope, or of an earlier stage behind one
/// of a later stage.
fn out_of_order(rng: &mut Random, way: usize) -> Vec<u8> {
    if way < 19 {
        let mut bytes = good_record(way as u8 + 2);
        bytes.extend(host(rng).bytes());
        return bytes;
    }
    let (later, earlier) = [(3, 2), (4, 2), (4, 3), (20, 2), (20, 3), (20, 5)][way - 19];
    let mut bytes = [host(rng).bytes(), vec![1, 2, 1]].concat();
    bytes.extend(good_record(later));
    bytes.extend(good_record(earlier));
    bytes
}

/// Each limit passed by one record; the book's length by one byte.
fn limit_exceeded(rng: &mut Random, way: usize) -> Vec<u8> {
    let mut draft = Draft {
        scopes: vec![DraftScope {
            variables: vec![YES_NO],
            ..DraftScope::default()
        }],
    };
    let scope = &mut draft.scopes[0];
    match way {
        0 => return [shapes::longest(rng).bytes(), vec![1]].concat(),
        1 => draft.scopes = vec![DraftScope::default(); 33],
        2 => scope.variables = vec![YES_NO; 33],
        3 => {
            scope.subscopes = vec![1; 9];
            draft.scopes.push(DraftScope::default());
        }
        4 => (0..=NODES).for_each(|_| {
            scope.constant(rng.percent(50));
        }),
        _ => (0..=CLAUSES).for_each(|_| scope.rule(255, 0, 255, 1)),
    }
    match way {
        1 => draft.bytes(),
        _ => surround(rng, draft),
    }
}

/// A type, constant or rule byte outside its values.
fn invalid_byte(rng: &mut Random, way: usize) -> Vec<u8> {
    let bad = rng.pick(&[3, 4, 128, 254, 255]);
    let low = if rng.percent(50) { bad } else { 0 };
    let high = if rng.percent(50) { bad } else { 2 };
    let mut bytes = host(rng).bytes();
    bytes.extend(match way {
        0 => vec![1, 2, low],
        1 => vec![1, 4, high],
        2 => vec![1, 8, low],
        3 => vec![1, 9, low],
        _ => vec![1, 2, 1, 20, 255, 0, 255, 255, high],
    });
    bytes.extend(host(rng).bytes());
    bytes
}

/// A number that names nothing or breaks the lower-number or same-target rule.
fn dangling(rng: &mut Random, scope: &mut DraftScope, way: usize) {
    if way < POSITIONS {
        let (kind, types, at) = position(way);
        let mut named = operands(rng, scope, types);
        let own = scope.nodes.len();
        let none_allowed = kind == 18 && at < 3;
        named[at] = rng.range(own, if none_allowed { 254 } else { 255 }) as u8;
        over(scope, kind, &named);
        return;
    }
    let node = constant(scope, YES_NO);
    let other = constant(scope, YES_NO);
    let beyond = |rng: &mut Random, count: usize| rng.range(count, 254) as u8;
    let nodes = scope.nodes.len();
    match way - POSITIONS {
        0 => scope.subscopes.push(rng.pick(&[33, 200, 255])),
        1 => {
            scope.own(rng.pick(&[5, 6, 255]));
        }
        2 => {
            scope.subscope(rng.pick(&[2, 3, 255]), 0);
        }
        3 => {
            scope.subscope(1, rng.pick(&[2, 3, 255]));
        }
        4 => scope.define(beyond(rng, 2), 0, 255, node),
        5 => scope.define(255, rng.pick(&[5, 255]), 255, node),
        6 => scope.define(1, rng.pick(&[2, 255]), 255, node),
        7 => scope.rule(255, 0, beyond(rng, nodes), 1),
        8 => scope.define(255, 0, 255, rng.pick(&[nodes as u8, 250, 255])),
        9 => scope.define(255, 0, beyond(rng, nodes), node),
        way => dangling_parent(rng, scope, way - 10, [node, other]),
    }
}

/// A parent of its own or a higher number, or of another target.
fn dangling_parent(rng: &mut Random, scope: &mut DraftScope, way: usize, nodes: [u8; 2]) {
    let earlier = scope.clauses.len() as u8;
    let (first, second, parent) = match way {
        0 => (
            (255, 0),
            (255, 0),
            rng.pick(&[earlier + 1, earlier + 2, 254]),
        ),
        1 => ((255, 0), (255, 1), earlier),
        2 => ((0, 0), (1, 0), earlier),
        _ => ((255, 0), (0, 0), earlier),
    };
    scope.define(first.0, first.1, 255, nodes[0]);
    scope.define(second.0, second.1, 255, nodes[1]);
    set_parent(scope, parent);
}

/// Changes the parent of the last clause.
fn set_parent(scope: &mut DraftScope, parent: u8) {
    if let Some(last) = scope.clauses.last_mut() {
        last[3] = parent;
    }
}

/// A node named twice: by two nodes, twice by one record, by node and clause, by
/// two clauses.
fn shared(rng: &mut Random, scope: &mut DraftScope, way: usize) {
    if way < POSITIONS {
        let (kind, types, at) = position(way);
        let named = operands(rng, scope, types);
        over(scope, types[at] + 9, &named[at..=at]);
        over(scope, kind, &named);
        return;
    }
    if way < POSITIONS * 2 {
        return shared_in_record(rng, scope, way - POSITIONS);
    }
    let node = constant(scope, YES_NO);
    match way - POSITIONS * 2 {
        0 => {
            over(scope, 10, &[node]);
            scope.rule(255, 0, node, 1);
        }
        1 => {
            over(scope, 10, &[node]);
            scope.define(0, 0, 255, node);
        }
        2 => {
            scope.rule(255, 0, node, 1);
            scope.rule(255, 0, node, 0);
        }
        3 => scope.define(255, 0, node, node),
        _ => {
            scope.define(255, 0, 255, node);
            scope.define(1, 0, 255, node);
        }
    }
}

/// One node at two positions of a record; for a lone operand, in two records.
fn shared_in_record(rng: &mut Random, scope: &mut DraftScope, way: usize) {
    let (kind, types, at) = position(way);
    let alike = |types: &[u8]| (0..types.len()).find(|&i| i != at && types[i] == types[at]);
    // Kinds 17 and 18 are also good with yes/no throughout.
    let types = match alike(types) {
        Some(_) => types.to_vec(),
        None => vec![types[at]; types.len()],
    };
    let mut named = operands(rng, scope, &types);
    match alike(&types) {
        Some(other) => named[at] = named[other],
        None => {
            over(scope, kind, &named);
        }
    }
    over(scope, kind, &named);
}

/// A type that does not fit, at each operand and each part of a clause.
fn mismatch(rng: &mut Random, scope: &mut DraftScope, way: usize) {
    if way < POSITIONS {
        let (kind, types, at) = position(way);
        let mut wanted = types.to_vec();
        wanted[at] = 3 - wanted[at];
        let named = operands(rng, scope, &wanted);
        over(scope, kind, &named);
        return;
    }
    // Leaves that read could make a step depend on itself; 8 comes before that.
    let yes_no = leaf(rng, scope, YES_NO);
    let number = leaf(rng, scope, NUMBER);
    let number = bury(rng, scope, number, NUMBER);
    let of_number = variable(NUMBER, 1);
    match way - POSITIONS {
        0 => scope.rule(255, 0, number, 1),
        1 => scope.define(255, 0, number, yes_no),
        2 => scope.define(1, 0, number, yes_no),
        3 => scope.define(255, 0, 255, number),
        4 => scope.define(255, of_number, 255, yes_no),
        5 => scope.define(0, 0, 255, number),
        6 => scope.define(0, 1, 255, yes_no),
        7 => scope.rule(255, of_number, 255, 1),
        _ => scope.rule(1, 1, 255, 0),
    }
}

/// Rule and definition on one target, side by side or one under the other.
fn mixed(scope: &mut DraftScope, way: usize) {
    let subscope = if way < 4 { 255 } else { 1 };
    let node = constant(scope, YES_NO);
    if way.is_multiple_of(2) {
        scope.define(subscope, 0, 255, node);
        scope.rule(subscope, 0, 255, 1);
    } else {
        scope.rule(subscope, 0, 255, 1);
        scope.define(subscope, 0, 255, node);
    }
    if way % 4 >= 2 {
        set_parent(scope, scope.clauses.len() as u8 - 2);
    }
}
