//! Operations with two operands: those that are a node of a book, and the signs that
//! stand for several nodes: `a > b` is `b < a`, `a <= b` is `not (b < a)`, `a >= b` is
//! `not (a < b)`, `a <> b` is `not (a = b)`, and `a or b` is `not (not a and not b)`.

use crate::parser::Parser;
use crate::place::Checked;
use crate::syntax::Form;
use second::kind;

/// How tightly signs bind.
pub const OR: u8 = 1;
pub const AND: u8 = 2;
pub const NOT: u8 = 3;
pub const COMPARISON: u8 = 4;
pub const SUM: u8 = 5;
pub const NEGATION: u8 = 6;

/// A sign or word between two operands, as a node of a book.
#[derive(Debug, PartialEq, Eq)]
pub struct Operation {
    pub sign: &'static str,
    pub level: u8,
    /// The record's kind.
    pub kind: u8,
    /// The operands change sides.
    pub exchanged: bool,
    /// Each operand is negated.
    pub of_negations: bool,
    /// The whole is negated.
    pub negated: bool,
}

const fn plain(sign: &'static str, kind: u8, level: u8) -> Operation {
    Operation {
        sign,
        level,
        kind,
        exchanged: false,
        of_negations: false,
        negated: false,
    }
}

pub const OPERATIONS: [Operation; 10] = [
    plain("and", kind::AND, AND),
    plain("=", kind::EQUAL, COMPARISON),
    plain("<", kind::LESS, COMPARISON),
    plain("+", kind::ADD, SUM),
    plain("-", kind::SUBTRACT, SUM),
    Operation {
        exchanged: true,
        ..plain(">", kind::LESS, COMPARISON)
    },
    Operation {
        exchanged: true,
        negated: true,
        ..plain("<=", kind::LESS, COMPARISON)
    },
    Operation {
        negated: true,
        ..plain(">=", kind::LESS, COMPARISON)
    },
    Operation {
        negated: true,
        ..plain("<>", kind::EQUAL, COMPARISON)
    },
    Operation {
        of_negations: true,
        negated: true,
        ..plain("or", kind::AND, OR)
    },
];

/// The operation that is one node of a kind.
pub fn of_kind(kind: u8) -> Option<&'static Operation> {
    let plain = |o: &&Operation| o.kind == kind && !o.exchanged && !o.negated;
    OPERATIONS.iter().find(plain)
}

/// The operation of a sign or word.
pub fn of_sign(sign: &str) -> Option<&'static Operation> {
    OPERATIONS.iter().find(|operation| operation.sign == sign)
}

impl Operation {
    /// The sign to keep with the nodes, where it is not their own.
    fn kept(&self) -> Option<&'static str> {
        (self.exchanged || self.negated).then_some(self.sign)
    }
}

impl Parser {
    /// The operation's node: its left operand is node `left`, the last one read, and its
    /// nodes begin at `start`; the right operand is still to be read.
    pub(crate) fn operate(
        &mut self,
        operation: &Operation,
        start: usize,
        left: usize,
    ) -> Checked<usize> {
        let place = self.scope.nodes[left].place;
        let left = self.side(operation, left)?;
        let middle = self.scope.nodes.len();
        let right = self.operation(operation.level + 1)?;
        let right = self.side(operation, right)?;
        let (left, right) = match operation.exchanged {
            true => self.exchange(start, middle, left, right),
            false => (left, right),
        };
        let form = Form::Binary(operation.kind, left, right);
        let node = self.add_signed(place, form, operation.kept())?;
        match operation.negated {
            true => self.add_signed(place, Form::Unary(kind::NOT, node), operation.kept()),
            false => Ok(node),
        }
    }

    /// An operand as the operation takes it.
    fn side(&mut self, operation: &Operation, node: usize) -> Checked<usize> {
        let place = self.scope.nodes[node].place;
        match operation.of_negations {
            true => self.add_signed(place, Form::Unary(kind::NOT, node), operation.kept()),
            false => Ok(node),
        }
    }

    /// Puts the nodes from `middle` on before those from `start` on, as if they were
    /// written first; hands the two operands back, the second one first.
    fn exchange(
        &mut self,
        start: usize,
        middle: usize,
        left: usize,
        right: usize,
    ) -> (usize, usize) {
        let nodes = &mut self.scope.nodes;
        let (first, second) = (middle - start, nodes.len() - middle);
        for node in &mut nodes[start..middle] {
            node.form.rename(|place| place + second);
        }
        for node in &mut nodes[middle..] {
            node.form.rename(|place| place - first);
        }
        nodes[start..].rotate_left(first);
        (right - first, left + second)
    }
}
