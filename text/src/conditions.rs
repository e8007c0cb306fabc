//! Whether clauses can hold together as far as their conditions say: comparisons and
//! variables are taken as free, each to be yes or no by itself.

use crate::printer::Expressions;
use crate::rulebook::Rulebook;
use second::kind::{self, NONE};
use second::scope::{Clause, Node, Scope, Target};
use second::value::Type;

/// No more free parts than this are tried; with more, anything is possible.
const MOST: usize = 16;

/// The conditions of one scope.
pub struct Conditions<'a> {
    scope: &'a Scope,
    expressions: Expressions<'a>,
    /// The type of each variable of the scope.
    book: &'a Rulebook,
    number: usize,
}

impl<'a> Conditions<'a> {
    pub fn of(book: &'a Rulebook, scope: usize) -> Self {
        Conditions {
            scope: &book.scopes[scope],
            expressions: Expressions::of_nodes(book, scope),
            book,
            number: scope,
        }
    }

    /// Whether two clauses, each with its exceptions, can both give a value.
    pub fn can_clash(&self, a: u8, b: u8) -> bool {
        self.possible(&[a, b], |free| self.gives(a, free) && self.gives(b, free))
    }

    /// Whether it can be that no clause of a target gives a value.
    pub fn can_be_empty(&self, target: Target) -> bool {
        let numbered = (0u8..).zip(&self.scope.clauses);
        let bases = numbered.filter(|(_, c)| c.target == target && c.parent == NONE);
        let bases: Vec<u8> = bases.map(|(number, _)| number).collect();
        self.possible(&bases, |free| !bases.iter().any(|&b| self.gives(b, free)))
    }

    /// Whether a clause's own condition can be yes.
    pub fn can_hold(&self, clause: u8) -> bool {
        self.possible(&[clause], |free| self.holds(clause, free))
    }

    /// Whether some choice of the free parts below these clauses does it.
    fn possible(&self, clauses: &[u8], wanted: impl Fn(&Free) -> bool) -> bool {
        let mut free = Free::default();
        clauses
            .iter()
            .for_each(|&clause| self.add_free(clause, &mut free));
        if free.parts.len() > MOST {
            return true;
        }
        (0..1u32 << free.parts.len()).any(|yes| {
            free.yes = yes;
            wanted(&free)
        })
    }

    fn exceptions(&self, clause: u8) -> impl Iterator<Item = u8> + '_ {
        let numbered = (0u8..).zip(&self.scope.clauses);
        let below = numbered.filter(move |(_, c): &(u8, &Clause)| c.parent == clause);
        below.map(|(number, _)| number)
    }

    fn add_free(&self, clause: u8, free: &mut Free) {
        let condition = self.scope.clauses[usize::from(clause)].condition;
        if condition != NONE {
            self.add_parts(condition, free);
        }
        self.exceptions(clause)
            .for_each(|below| self.add_free(below, free));
    }

    fn add_parts(&self, number: u8, free: &mut Free) {
        match self.parts(number) {
            Some(parts) => parts
                .into_iter()
                .for_each(|part| self.add_parts(part, free)),
            None => free.add(self.name(number)),
        }
    }

    /// The operands of what is taken apart; nothing for a free part.
    fn parts(&self, number: u8) -> Option<Vec<u8>> {
        let node = self.scope.nodes[usize::from(number)];
        let apart = match node {
            Node::Constant(_) | Node::Unary(kind::NOT, _) | Node::Binary(kind::AND, ..) => true,
            Node::If(..) => true,
            Node::Binary(kind::EQUAL, a, _) => self.is_yes_no(a),
            _ => false,
        };
        apart.then(|| node.operands().collect())
    }

    fn is_yes_no(&self, number: u8) -> bool {
        match self.scope.nodes[usize::from(number)] {
            Node::Own(v) => self.scope.variables[usize::from(v)] == Type::YesNo,
            Node::Subscope(k, v) => {
                let callee = self.book.callee(self.number, k);
                self.book.scopes[callee].variables[usize::from(v)] == Type::YesNo
            }
            Node::Constant(_) | Node::Unary(kind::NOT, _) => true,
            Node::Binary(kind::AND | kind::EQUAL | kind::LESS, ..) => true,
            _ => false,
        }
    }

    fn name(&self, number: u8) -> String {
        self.expressions.node(number, 0)
    }

    /// Whether a clause or an exception below it gives a value.
    fn gives(&self, clause: u8, free: &Free) -> bool {
        self.exceptions(clause).any(|below| self.gives(below, free)) || self.holds(clause, free)
    }

    fn holds(&self, clause: u8, free: &Free) -> bool {
        match self.scope.clauses[usize::from(clause)].condition {
            NONE => true,
            node => self.is(node, free),
        }
    }

    fn is(&self, number: u8, free: &Free) -> bool {
        if self.parts(number).is_none() {
            return free.is(&self.name(number));
        }
        match self.scope.nodes[usize::from(number)] {
            Node::Constant(yes) => yes,
            Node::Unary(_, a) => !self.is(a, free),
            Node::Binary(kind::AND, a, b) => self.is(a, free) && self.is(b, free),
            Node::Binary(_, a, b) => self.is(a, free) == self.is(b, free),
            Node::If(c, a, b) => match self.is(c, free) {
                true => self.is(a, free),
                false => self.is(b, free),
            },
            _ => false,
        }
    }
}

/// Free parts by how they are written, one bit each.
#[derive(Default)]
struct Free {
    parts: Vec<String>,
    yes: u32,
}

impl Free {
    fn add(&mut self, part: String) {
        if !self.parts.contains(&part) {
            self.parts.push(part);
        }
    }

    fn is(&self, part: &str) -> bool {
        let bit = self.parts.iter().position(|other| other == part);
        bit.is_some_and(|bit| self.yes >> bit & 1 == 1)
    }
}
