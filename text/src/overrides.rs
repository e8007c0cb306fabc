//! Overrides that are empty: nothing is handed over, and the called scope's own tree
//! stands.

use crate::evaluation::{Entry, Taken, Tree};
use second::kind::NONE;
use second::scope::{Consequence, Node, Scope, Target};
use second::value::Failure;

/// What an empty override fell back to.
pub enum Fallback<'a> {
    /// Another override of the call ended the run.
    NotEntered,
    /// The called scope ended before it came to the variable.
    NotReached,
    /// The called scope's own tree.
    Own(&'a Tree),
}

impl<'a> Fallback<'a> {
    /// Of an override of a call, where it is empty.
    pub fn of(tree: &Tree, called: Option<&'a Entry>) -> Option<Fallback<'a>> {
        if tree.result != Err(Failure::Empty) {
            return None;
        }
        let Some(called) = called else {
            return Some(Fallback::NotEntered);
        };
        let own = own_tree(called, tree.target.variable);
        Some(own.map_or(Fallback::NotReached, Fallback::Own))
    }
}

/// The tree of an own variable, where it was evaluated.
pub fn own_tree(entry: &Entry, variable: u8) -> Option<&Tree> {
    entry.taken.iter().find_map(|taken| match taken {
        Taken::Variable(tree) if tree.target.variable == variable => Some(tree),
        _ => None,
    })
}

/// The empty override of a variable, where a call has one.
pub fn empty_override(overrides: &[Tree], variable: u8) -> Option<&Tree> {
    let mut trees = overrides.iter();
    trees.find(|tree| tree.target.variable == variable && tree.result == Err(Failure::Empty))
}

/// How many overrides fell back in an entered scope and in those that it called.
pub fn count_fallbacks(entry: &Entry) -> usize {
    let calls = entry.taken.iter().map(|taken| match taken {
        Taken::Call(_, overrides, called) => {
            let empty = |tree: &&Tree| tree.result == Err(Failure::Empty);
            let own = overrides.iter().filter(empty).count();
            own + called.as_ref().map_or(0, count_fallbacks)
        }
        _ => 0,
    });
    calls.sum()
}

/// Whether an override can be empty as far as its clauses tell: it has no rules, and no base
/// without condition that always has a value.
pub fn can_fall_back(scope: &Scope, target: Target) -> bool {
    let mut clauses = scope.clauses.iter().filter(|c| c.target == target);
    !clauses.any(|clause| {
        let always = clause.parent == NONE && clause.condition == NONE;
        clause.is_rule() || always && !consequence_can_be_empty(scope, clause.consequence)
    })
}

fn consequence_can_be_empty(scope: &Scope, consequence: Consequence) -> bool {
    match consequence {
        Consequence::Node(node) => node_can_be_empty(scope, node),
        Consequence::Constant(_) => false,
    }
}

/// Variables have values where they are read.
fn node_can_be_empty(scope: &Scope, number: u8) -> bool {
    match scope.nodes[usize::from(number)] {
        Node::Empty(_) | Node::Default(..) => true,
        node => node.operands().any(|n| node_can_be_empty(scope, n)),
    }
}
