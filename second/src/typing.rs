//! Refusals 8 and 9: types that do not fit, and targets with rules and definitions.

use crate::kind;
use crate::kind::NONE;
use crate::refusal::Refusal;
use crate::scope::{target_type, variables_of, Clause, Consequence, Node, Scope};
use crate::trees::target_index;
use crate::value::Type;

/// Every node and every clause is typed, reached or not.
pub fn check_types(scopes: &[Scope]) -> Result<(), Refusal> {
    let mut types = Vec::new();
    let fits = scopes.iter().all(|scope| {
        types.clear();
        scope_types(scopes, scope, &mut types).is_some()
    });
    fits.then_some(()).ok_or(Refusal::TypeMismatch)
}

/// Types of all nodes, bottom up; nothing when one does not fit.
fn scope_types(scopes: &[Scope], scope: &Scope, types: &mut Vec<Type>) -> Option<()> {
    for node in &scope.nodes {
        let found = node_type(scopes, scope, types, node)?;
        types.push(found);
    }
    let mut clauses = scope.clauses.iter();
    let fits = clauses.all(|clause| clause_fits(scopes, scope, types, clause));
    fits.then_some(())
}

fn node_type(scopes: &[Scope], scope: &Scope, types: &[Type], node: &Node) -> Option<Type> {
    let of = |operand: u8| types[usize::from(operand)];
    match *node {
        Node::Constant(_) => Some(Type::YesNo),
        Node::Number(_) => Some(Type::Number),
        Node::Own(v) => Some(scope.variables[usize::from(v)]),
        Node::Subscope(k, v) => Some(variables_of(scopes, scope, k)?[usize::from(v)]),
        Node::Empty(own) | Node::Conflict(own) => Some(own),
        Node::Unary(kind, a) => unary_type(kind, of(a)),
        Node::Binary(kind, a, b) => binary_type(kind, of(a), of(b)),
        Node::If(c, a, b) => branch_type(of(c), of(a), of(b)),
        Node::Default(exceptions, j, c) => default_type(types, exceptions, of(j), of(c)),
    }
}

fn unary_type(kind: u8, operand: Type) -> Option<Type> {
    let wanted = match kind {
        kind::NOT => Type::YesNo,
        _ => Type::Number,
    };
    (operand == wanted).then_some(wanted)
}

fn binary_type(kind: u8, left: Type, right: Type) -> Option<Type> {
    let (wanted, result) = match kind {
        kind::AND => (Type::YesNo, Type::YesNo),
        kind::ADD | kind::SUBTRACT => (Type::Number, Type::Number),
        kind::LESS => (Type::Number, Type::YesNo),
        // "Equal takes two of one type".
        _ => (left, Type::YesNo),
    };
    (left == wanted && right == wanted).then_some(result)
}

fn branch_type(condition: Type, then: Type, other: Type) -> Option<Type> {
    (condition == Type::YesNo && then == other).then_some(then)
}

fn default_type(types: &[Type], exceptions: [u8; 3], j: Type, c: Type) -> Option<Type> {
    let mut present = exceptions.iter().filter(|&&e| e != NONE);
    let fits = j == Type::YesNo && present.all(|&e| types[usize::from(e)] == c);
    fits.then_some(c)
}

/// "Conditions are yes/no; a consequence has its target's type".
fn clause_fits(scopes: &[Scope], scope: &Scope, types: &[Type], clause: &Clause) -> bool {
    let condition = clause.condition;
    let consequence = match clause.consequence {
        Consequence::Node(node) => types[usize::from(node)],
        Consequence::Constant(_) => Type::YesNo,
    };
    (condition == NONE || types[usize::from(condition)] == Type::YesNo)
        && target_type(scopes, scope, clause.target) == Some(consequence)
}

/// "Rule and definition on one target".
pub fn check_mixed(scopes: &[Scope]) -> Result<(), Refusal> {
    if scopes.iter().any(has_mixed_target) {
        Err(Refusal::MixedClauses)
    } else {
        Ok(())
    }
}

fn has_mixed_target(scope: &Scope) -> bool {
    let mut rules: [Option<bool>; crate::trees::TARGETS] = [None; crate::trees::TARGETS];
    scope.clauses.iter().any(|clause| {
        let seen = &mut rules[target_index(clause.target)];
        seen.replace(clause.is_rule())
            .is_some_and(|rule| rule != clause.is_rule())
    })
}
