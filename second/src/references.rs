//! Refusals 6 and 7: numbers that name nothing, and nodes named more than once.

use crate::kind::NONE;
use crate::refusal::Refusal;
use crate::scope::{target_type, variables_of, Clause, Node, Scope};

/// "A number names nothing, or breaks the lower-number or same-target rule".
pub fn check_dangling(scopes: &[Scope]) -> Result<(), Refusal> {
    if scopes.iter().all(|scope| resolves(scopes, scope)) {
        Ok(())
    } else {
        Err(Refusal::DanglingReference)
    }
}

fn resolves(scopes: &[Scope], scope: &Scope) -> bool {
    let mut nodes = scope.nodes.iter().enumerate();
    let mut clauses = scope.clauses.iter().enumerate();
    let mut subscopes = scope.subscopes.iter();
    subscopes.all(|&number| usize::from(number) < scopes.len())
        && nodes.all(|(i, node)| node_resolves(scopes, scope, i, node))
        && clauses.all(|(i, clause)| clause_resolves(scopes, scope, i, clause))
}

/// "A node names nodes of lower number only".
fn node_resolves(scopes: &[Scope], scope: &Scope, own: usize, node: &Node) -> bool {
    match *node {
        Node::Own(v) => usize::from(v) < scope.variables.len(),
        Node::Subscope(k, v) => {
            let variables = variables_of(scopes, scope, k);
            variables.is_some_and(|types| usize::from(v) < types.len())
        }
        _ => node.operands().all(|operand| usize::from(operand) < own),
    }
}

/// "A clause names a parent of lower number with the same target".
fn clause_resolves(scopes: &[Scope], scope: &Scope, own: usize, clause: &Clause) -> bool {
    let parent = usize::from(clause.parent);
    let parent_fits =
        clause.parent == NONE || (parent < own && scope.clauses[parent].target == clause.target);
    let mut operands = clause.operands();
    parent_fits
        && target_type(scopes, scope, clause.target).is_some()
        && operands.all(|operand| usize::from(operand) < scope.nodes.len())
}

/// Each naming byte counts once, of nodes and clauses together.
pub fn check_shared(scopes: &[Scope]) -> Result<(), Refusal> {
    if scopes.iter().any(has_shared_node) {
        Err(Refusal::SharedNode)
    } else {
        Ok(())
    }
}

fn has_shared_node(scope: &Scope) -> bool {
    let mut named = [false; 256];
    let by_nodes = scope.nodes.iter().flat_map(Node::operands);
    let by_clauses = scope.clauses.iter().flat_map(Clause::operands);
    by_nodes
        .chain(by_clauses)
        .any(|operand| std::mem::replace(&mut named[usize::from(operand)], true))
}
