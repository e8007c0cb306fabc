//! Where a refused book has its fault, in words. Such a book has no names: its parts are
//! called by their numbers.

use crate::printer::in_language;
use crate::reading::to_book;
use second::decode::{decode, MAX_BOOK};
use second::kind::NONE;
use second::reader::Records;
use second::scope::{target_type, variables_of, Clause, Node, Scope, Target};

/// What is wrong with a book that is refused with a number from 1 to 12.
pub fn located(bytes: &[u8], number: u8) -> Option<String> {
    if number <= 5 {
        return Some(in_records(bytes));
    }
    let scopes = decode(bytes).ok()?;
    let mut numbered = scopes.iter().enumerate();
    match number {
        6 => numbered.find_map(|(s, scope)| dangling(&scopes, s, scope)),
        7 => numbered.find_map(|(s, scope)| shared(s, scope)),
        _ => in_words(scopes),
    }
}

/// The record with which the book begins to be unsound.
fn in_records(bytes: &[u8]) -> String {
    if bytes.len() > MAX_BOOK {
        let length = bytes.len();
        return format!("the book has {length} bytes, and {MAX_BOOK} are the most");
    }
    let mut starts = vec![0];
    let mut records = Records::of_book(bytes);
    while let Ok(Some(record)) = records.read() {
        starts.push(record.start + 1 + record.body.len());
    }
    let sound = |&&start: &&usize| decode(&bytes[..start]).is_ok();
    let start = starts.iter().rev().find(sound).copied().unwrap_or(0);
    let kind = bytes.get(start).copied().unwrap_or(0);
    format!("the record at byte {start}, of kind {kind}")
}

/// The first number of a scope that names nothing, or nothing that it may.
fn dangling(scopes: &[Scope], s: usize, scope: &Scope) -> Option<String> {
    let lost = |&(_, &called): &(usize, &u8)| usize::from(called) >= scopes.len();
    if let Some((k, called)) = scope.subscopes.iter().enumerate().find(lost) {
        return Some(format!(
            "sub-scope {k} of scope {s} calls scope {called}, which is not there"
        ));
    }
    let mut nodes = scope.nodes.iter().enumerate();
    let mut clauses = scope.clauses.iter().enumerate();
    let node = nodes.find_map(|(i, node)| {
        let wrong = dangling_node(scopes, scope, i, node)?;
        Some(format!("node {i} of scope {s} names {wrong}"))
    });
    node.or_else(|| {
        clauses.find_map(|(i, clause)| {
            let wrong = dangling_clause(scopes, scope, i, clause)?;
            Some(format!("clause {i} of scope {s} names {wrong}"))
        })
    })
}

fn variable(scopes: &[Scope], scope: &Scope, target: Target) -> Option<String> {
    let Target { subscope, variable } = target;
    match subscope {
        _ if target_type(scopes, scope, target).is_some() => None,
        NONE => Some(format!("variable {variable}, which is not there")),
        k if variables_of(scopes, scope, k).is_none() => {
            Some(format!("sub-scope {k}, which is not there"))
        }
        k => Some(format!(
            "variable {variable} of sub-scope {k}, which is not there"
        )),
    }
}

fn dangling_node(scopes: &[Scope], scope: &Scope, own: usize, node: &Node) -> Option<String> {
    let (subscope, read) = match *node {
        Node::Own(v) => (NONE, v),
        Node::Subscope(k, v) if k != NONE => (k, v),
        Node::Subscope(k, _) => return Some(format!("sub-scope {k}, which is not there")),
        _ => {
            let lost = node.operands().find(|&o| usize::from(o) >= own)?;
            return Some(missing_node(lost, scope, "does not stand before it"));
        }
    };
    let target = Target {
        subscope,
        variable: read,
    };
    variable(scopes, scope, target)
}

fn missing_node(node: u8, scope: &Scope, later: &str) -> String {
    match usize::from(node) < scope.nodes.len() {
        true => format!("node {node}, which {later}"),
        false => format!("node {node}, which is not there"),
    }
}

fn dangling_clause(scopes: &[Scope], scope: &Scope, own: usize, clause: &Clause) -> Option<String> {
    if let Some(wrong) = variable(scopes, scope, clause.target) {
        return Some(wrong);
    }
    let parent = usize::from(clause.parent);
    if clause.parent != NONE && parent >= own {
        return Some(format!(
            "clause {parent} as what it is an exception to, which does not stand before it"
        ));
    }
    if clause.parent != NONE && scope.clauses[parent].target != clause.target {
        return Some(format!(
            "clause {parent} as what it is an exception to, which has another target"
        ));
    }
    let mut operands = clause.operands();
    let lost = operands.find(|&o| usize::from(o) >= scope.nodes.len())?;
    Some(missing_node(lost, scope, "is not there"))
}

fn shared(s: usize, scope: &Scope) -> Option<String> {
    let mut named = [false; 256];
    let by_nodes = scope.nodes.iter().flat_map(Node::operands);
    let mut all = by_nodes.chain(scope.clauses.iter().flat_map(Clause::operands));
    let twice = all.find(|&o| std::mem::replace(&mut named[usize::from(o)], true))?;
    Some(format!("node {twice} of scope {s} is named more than once"))
}

/// Faults 8 to 12, as the language says them of the same book.
fn in_words(scopes: Vec<Scope>) -> Option<String> {
    let text = in_language(scopes);
    let faults = to_book(&text).err()?;
    let fault = faults.first()?;
    let line = fault.place.and_then(|p| text.lines().nth(p.line - 1));
    let line = line.map_or("", str::trim);
    Some(format!("{}, in '{line}'", fault.message))
}
