//! Ways for an override to be empty.

use super::super::draft::{DraftScope, YES_NO};
use super::super::workbench::{constant, over};

/// How an override tree is a value where its condition is yes and empty where it is no.
#[derive(Clone, Copy, Debug)]
pub enum Way {
    /// The condition of its only clause.
    Condition,
    /// An empty constant as that condition.
    EmptyCondition,
    /// An empty constant as the value.
    EmptyValue,
    /// An empty constant deep in the operands of the value.
    EmptyOperand,
    /// One of two clauses beside each other, of which the other does not hold.
    Beside,
    /// An exception to a clause that does not hold.
    Exception,
    /// An exception that is empty to a clause that may not hold.
    EmptyException,
    /// The justification of a default node.
    Justification,
    /// An exception of a default node that does not hold.
    NodeException,
    /// The innermost of default nodes in each other's consequences.
    Nested,
}

pub const WAYS: [Way; 10] = [
    Way::Condition,
    Way::EmptyCondition,
    Way::EmptyValue,
    Way::EmptyOperand,
    Way::Beside,
    Way::Exception,
    Way::EmptyException,
    Way::Justification,
    Way::NodeException,
    Way::Nested,
];

/// Sub-scope and variable.
pub type Target = (u8, u8);

/// Writes an override in one of the ways, of a type, under a node as its condition.
pub fn write(scope: &mut DraftScope, (k, v): Target, of: u8, way: Way, condition: u8) {
    match way {
        Way::Condition => {
            let value = constant(scope, of);
            scope.define(k, v, condition, value);
        }
        Way::EmptyCondition => {
            let (yes, empty) = (scope.constant(true), scope.node(&[8, YES_NO]));
            let condition = over(scope, 17, &[condition, yes, empty]);
            let value = constant(scope, of);
            scope.define(k, v, condition, value);
        }
        Way::Beside | Way::Exception => {
            let (no, other, value) = (
                scope.constant(false),
                constant(scope, of),
                constant(scope, of),
            );
            let parent = match way {
                Way::Beside => 255,
                _ => scope.clauses.len() as u8,
            };
            scope.define(k, v, no, other);
            scope.clauses.push([19, k, v, parent, condition, value]);
        }
        Way::EmptyException => {
            let (value, empty) = (constant(scope, of), scope.node(&[8, of]));
            let parent = scope.clauses.len() as u8;
            scope.define(k, v, condition, value);
            scope.clauses.push([19, k, v, parent, 255, empty]);
        }
        _ => {
            let value = conditional_value(scope, of, way, condition);
            scope.define(k, v, 255, value);
        }
    }
}

/// A value or empty, where one node says which.
fn conditional_value(scope: &mut DraftScope, of: u8, way: Way, condition: u8) -> u8 {
    let (value, empty) = (constant(scope, of), scope.node(&[8, of]));
    match way {
        Way::EmptyOperand => {
            let some = over(scope, 17, &[condition, value, empty]);
            let other = constant(scope, of);
            let both = over(scope, of + 11, &[other, some]);
            let turned = over(scope, of + 9, &[both]);
            over(scope, of + 9, &[turned])
        }
        Way::Justification => over(scope, 18, &[255, empty, 255, condition, value]),
        Way::NodeException => {
            let exception = over(scope, 17, &[condition, value, empty]);
            let (no, other) = (scope.constant(false), constant(scope, of));
            over(scope, 18, &[255, 255, exception, no, other])
        }
        Way::Nested => {
            let mut node = over(scope, 18, &[255, 255, 255, condition, value]);
            for _ in 0..2 {
                let (yes, empty) = (scope.constant(true), scope.node(&[8, of]));
                node = over(scope, 18, &[empty, 255, 255, yes, node]);
            }
            node
        }
        _ => over(scope, 17, &[condition, value, empty]),
    }
}
