//! Scopes to the bytes of a book.

use second::kind;
use second::scope::{Clause, Consequence, Node, Scope};

/// The records of all scopes.
pub fn book_bytes(scopes: &[Scope]) -> Vec<u8> {
    scopes.iter().flat_map(scope_bytes).collect()
}

pub fn scope_bytes(scope: &Scope) -> Vec<u8> {
    let mut bytes = vec![kind::SCOPE];
    for &of in &scope.variables {
        bytes.extend([kind::VARIABLE, of as u8]);
    }
    for &called in &scope.subscopes {
        bytes.extend([kind::SUBSCOPE, called]);
    }
    scope
        .nodes
        .iter()
        .for_each(|node| add_node(&mut bytes, node));
    scope
        .clauses
        .iter()
        .for_each(|clause| add_clause(&mut bytes, clause));
    bytes
}

fn add_node(bytes: &mut Vec<u8>, node: &Node) {
    match *node {
        Node::Constant(yes) => bytes.extend([kind::CONSTANT, u8::from(yes)]),
        Node::Number(n) => {
            bytes.push(kind::NUMBER);
            bytes.extend(n.to_be_bytes());
        }
        Node::Own(v) => bytes.extend([kind::OWN_VARIABLE, v]),
        Node::Subscope(k, v) => bytes.extend([kind::SUBSCOPE_VARIABLE, k, v]),
        Node::Empty(of) => bytes.extend([kind::EMPTY, of as u8]),
        Node::Conflict(of) => bytes.extend([kind::CONFLICT, of as u8]),
        Node::Unary(kind, a) => bytes.extend([kind, a]),
        Node::Binary(kind, a, b) => bytes.extend([kind, a, b]),
        Node::If(a, b, c) => bytes.extend([kind::IF, a, b, c]),
        Node::Default([x, y, z], j, c) => bytes.extend([kind::DEFAULT, x, y, z, j, c]),
    }
}

fn add_clause(bytes: &mut Vec<u8>, clause: &Clause) {
    let (kind, last) = match clause.consequence {
        Consequence::Node(node) => (kind::DEFINITION, node),
        Consequence::Constant(yes) => (kind::RULE, u8::from(yes)),
    };
    let target = clause.target;
    let head = [kind, target.subscope, target.variable];
    bytes.extend(head);
    bytes.extend([clause.parent, clause.condition, last]);
}
