//! What goes deepest: 32 scopes that call one another, and in the innermost of them 128
//! clauses, each the exception of the one before, the last with a chain of nodes; and code
//! of as many blocks with full stacks, that no compiler wrote.

use super::assembler::{Assembler, YES};
use super::draft::{Draft, DraftScope, CLAUSES, YES_NO};

/// How a node of the chain holds the one before it.
#[derive(Clone, Copy, Debug)]
pub enum Chain {
    Operands,
    Branches,
    Exceptions,
}

pub const CHAINS: [Chain; 3] = [Chain::Operands, Chain::Branches, Chain::Exceptions];

impl Chain {
    /// How many nodes lengthen the chain by one.
    fn nodes(self) -> usize {
        match self {
            Chain::Operands => 1,
            Chain::Branches | Chain::Exceptions => 3,
        }
    }
}

/// Scopes, and blocks of code.
const SCOPES: u8 = 32;

/// A chain of yes/no nodes, as long as the scope has room for.
fn chain(scope: &mut DraftScope, of: Chain) -> u8 {
    let mut node = scope.constant(true);
    while scope.room() >= of.nodes() {
        node = match of {
            Chain::Operands => scope.node(&[10, node]),
            Chain::Branches => {
                let (one, other) = (scope.constant(true), scope.constant(false));
                scope.node(&[17, node, one, other])
            }
            Chain::Exceptions => {
                let (yes, no) = (scope.constant(true), scope.constant(false));
                scope.node(&[18, node, 255, 255, yes, no])
            }
        };
    }
    node
}

fn innermost(of: Chain) -> DraftScope {
    let mut scope = DraftScope {
        variables: vec![YES_NO],
        ..DraftScope::default()
    };
    let node = chain(&mut scope, of);
    for clause in 0..CLAUSES as u8 {
        let parent = clause.checked_sub(1).unwrap_or(255);
        let last = usize::from(clause) + 1 == CLAUSES;
        let condition = if last { node } else { 255 };
        scope.clauses.push([20, 255, 0, parent, condition, 1]);
    }
    scope
}

/// Calls the scope before it, and twice the first one, so that it has room for three.
fn outer(number: u8) -> DraftScope {
    let mut scope = DraftScope {
        variables: vec![YES_NO],
        subscopes: vec![number - 1, 0, 0],
        ..DraftScope::default()
    };
    let read = scope.subscope(0, 0);
    scope.define(255, 0, 255, read);
    scope
}

/// A book whose last scope goes deepest.
pub fn book(of: Chain) -> Draft {
    let mut scopes = vec![innermost(of)];
    scopes.extend((1..SCOPES).map(outer));
    Draft { scopes }
}

/// Code whose last block enters the one before it with so many entries on its stack, and so on down to the first.
pub fn code(entries: usize) -> Vec<u8> {
    let mut assembler = Assembler::default();
    for number in 0..SCOPES {
        let called: Vec<u8> = number.checked_sub(1).into_iter().collect();
        assembler.block(number, &[YES_NO], &called);
        (0..entries).for_each(|_| assembler.put(YES));
        if number > 0 {
            assembler.put(&[43, 0]);
        }
        assembler.put(&[41, 0]);
    }
    assembler.finish()
}
