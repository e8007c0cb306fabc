//! Expressions of an entered scope: their values, and in which part one fails.

use crate::evaluation::{Entry, Evaluated};
use second::kind::NONE;
use second::scope::Node;
use second::value::{binary, unary, Failure, OperationError, Value};

/// The expressions of a scope and the entry whose values they read.
pub struct Terms<'a> {
    pub nodes: &'a [Node],
    pub entry: &'a Entry,
}

impl Terms<'_> {
    pub fn node(&self, number: u8) -> Evaluated {
        match self.nodes[usize::from(number)] {
            Node::Constant(yes) => Ok(Value::YesNo(yes)),
            Node::Number(n) => Ok(Value::Number(n)),
            Node::Own(variable) => self.read(NONE, variable),
            Node::Subscope(subscope, variable) => self.read(subscope, variable),
            Node::Empty(_) => Err(Failure::Empty),
            Node::Conflict(_) => Err(Failure::Conflict),
            Node::Unary(kind, a) => operated(unary(kind, self.node(a)?)),
            Node::Binary(kind, a, b) => {
                let left = self.node(a)?;
                operated(binary(kind, left, self.node(b)?))
            }
            Node::If(condition, then, other) => self.node(self.branch(condition, then, other)?),
            Node::Default(exceptions, justification, consequence) => {
                self.default_term(exceptions, justification, consequence)
            }
        }
    }

    fn branch(&self, condition: u8, then: u8, other: u8) -> Result<u8, Failure> {
        Ok(match self.node(condition)? {
            Value::YesNo(true) => then,
            _ => other,
        })
    }

    fn default_term(&self, exceptions: [u8; 3], j: u8, c: u8) -> Evaluated {
        let mut found = Vec::new();
        for exception in exceptions.into_iter().filter(|&e| e != NONE) {
            match self.node(exception) {
                Ok(value) => found.push(value),
                Err(Failure::Empty) => {}
                Err(failure) => return Err(failure),
            }
        }
        match found[..] {
            [] if self.node(j)? == Value::YesNo(true) => self.node(c),
            [] => Err(Failure::Empty),
            [value] => Ok(value),
            _ => Err(Failure::Conflict),
        }
    }

    /// The order of steps puts a value before its reads.
    fn read(&self, subscope: u8, variable: u8) -> Evaluated {
        self.entry.value(subscope, variable).ok_or(Failure::Empty)
    }

    /// The part of an expression that is empty, above or below the range, in which that
    /// began.
    pub fn origin(&self, number: u8, failure: Failure) -> u8 {
        let node = &self.nodes[usize::from(number)];
        let operands: Vec<u8> = match *node {
            Node::If(condition, then, other) => match self.branch(condition, then, other) {
                Ok(taken) => vec![taken],
                Err(_) => vec![condition],
            },
            Node::Default(_, j, c) if failure == Failure::Empty => match self.node(j) {
                Ok(Value::YesNo(true)) => vec![c],
                Ok(_) => Vec::new(),
                Err(_) => vec![j],
            },
            _ => node.operands().collect(),
        };
        let mut failed = operands.into_iter();
        match failed.find(|&operand| self.node(operand) == Err(failure)) {
            Some(operand) => self.origin(operand, failure),
            None => number,
        }
    }
}

/// Operands were typed when the book was read.
fn operated(result: Result<Value, OperationError>) -> Evaluated {
    result.map_err(|error| error.failure().expect("operands are typed"))
}
