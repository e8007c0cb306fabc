//! Default trees of a scope's targets, shared by evaluator and compiler.

use crate::decode::{MAX_SUBSCOPES, MAX_VARIABLES};
use crate::kind::NONE;
use crate::scope::{Clause, Consequence, Scope, Target};

/// Own variables, then the variables of each sub-scope.
pub const TARGETS: usize = (1 + MAX_SUBSCOPES) * MAX_VARIABLES;

/// Place of a target in a table of all targets.
pub fn target_index(target: Target) -> usize {
    let row = match target.subscope {
        NONE => 0,
        k => 1 + usize::from(k),
    };
    row * MAX_VARIABLES + usize::from(target.variable)
}

/// A part of a tree.
#[derive(Clone, Copy, Debug)]
pub enum Part {
    Empty,
    Constant(bool),
    Node(u8),
    Clause(u8),
    /// A term over several bases, or over the bases of a target with rules.
    Bases {
        first: u8,
        rules: bool,
    },
}

/// A default term; its exceptions are nodes or a chain of clauses.
pub struct Term<'a> {
    pub exceptions: Exceptions<'a>,
    pub justification: Part,
    pub consequence: Part,
}

/// The exceptions of a term, left to right.
pub struct Exceptions<'a> {
    nodes: &'a [u8],
    clause: u8,
    siblings: &'a [u8],
}

impl Iterator for Exceptions<'_> {
    type Item = Part;

    fn next(&mut self) -> Option<Part> {
        while let Some((&node, rest)) = self.nodes.split_first() {
            self.nodes = rest;
            if node != NONE {
                return Some(Part::Node(node));
            }
        }
        let clause = self.clause;
        if clause == NONE {
            return None;
        }
        self.clause = self.siblings[usize::from(clause)];
        Some(Part::Clause(clause))
    }
}

/// Chains of clauses: the bases of each target, the exceptions of each clause.
pub struct Trees {
    bases: [u8; TARGETS],
    children: Vec<u8>,
    siblings: Vec<u8>,
}

impl Trees {
    /// Clauses are put in front of their chain from the last to the first,
    /// so that each chain is in number order.
    pub fn of(scope: &Scope) -> Trees {
        let count = scope.clauses.len();
        let mut trees = Trees {
            bases: [NONE; TARGETS],
            children: vec![NONE; count],
            siblings: vec![NONE; count],
        };
        for (i, clause) in scope.clauses.iter().enumerate().rev() {
            let first = match clause.parent {
                NONE => &mut trees.bases[target_index(clause.target)],
                parent => &mut trees.children[usize::from(parent)],
            };
            trees.siblings[i] = std::mem::replace(first, i as u8);
        }
        trees
    }

    /// The tree of a target with clauses.
    pub fn tree(&self, scope: &Scope, target: Target) -> Option<Part> {
        let first = self.bases[target_index(target)];
        if first == NONE {
            return None;
        }
        let rules = scope.clauses[usize::from(first)].is_rule();
        if rules || self.siblings[usize::from(first)] != NONE {
            return Some(Part::Bases { first, rules });
        }
        Some(Part::Clause(first))
    }

    /// "No clause gives the term empty": for own variables.
    pub fn own_tree(&self, scope: &Scope, variable: usize) -> Part {
        let target = Target {
            subscope: NONE,
            variable: variable as u8,
        };
        self.tree(scope, target).unwrap_or(Part::Empty)
    }

    /// "A clause is a default term".
    pub fn clause_term(&self, number: u8, clause: &Clause) -> Term<'_> {
        let justification = match clause.condition {
            NONE => Part::Constant(true),
            node => Part::Node(node),
        };
        let consequence = match clause.consequence {
            Consequence::Node(node) => Part::Node(node),
            Consequence::Constant(value) => Part::Constant(value),
        };
        Term {
            exceptions: self.chain(self.children[usize::from(number)]),
            justification,
            consequence,
        }
    }

    /// Bases as exceptions: without rules "justification yes and consequence empty",
    /// with rules "justification yes and consequence no".
    pub fn bases_term(&self, first: u8, rules: bool) -> Term<'_> {
        Term {
            exceptions: self.chain(first),
            justification: Part::Constant(true),
            consequence: if rules {
                Part::Constant(false)
            } else {
                Part::Empty
            },
        }
    }

    fn chain(&self, first: u8) -> Exceptions<'_> {
        Exceptions {
            nodes: &[],
            clause: first,
            siblings: &self.siblings,
        }
    }
}

/// A default node as a term.
pub fn node_term(exceptions: &[u8; 3], justification: u8, consequence: u8) -> Term<'_> {
    Term {
        exceptions: Exceptions {
            nodes: exceptions,
            clause: NONE,
            siblings: &[],
        },
        justification: Part::Node(justification),
        consequence: Part::Node(consequence),
    }
}
