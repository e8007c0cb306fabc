//! A book with its names and places: what a text means.

use crate::place::Place;
use crate::syntax::Word;
use second::kind::NONE;
use second::scope::{Scope, Target};
use second::value::Type;

/// The scopes, and for each the names of what is in it.
#[derive(Debug, Default)]
pub struct Rulebook {
    pub scopes: Vec<Scope>,
    pub names: Vec<Names>,
}

/// Names and places of one scope's parts, in number order.
#[derive(Debug, Default)]
pub struct Names {
    pub scope: Word,
    pub variables: Vec<Word>,
    pub subscopes: Vec<Word>,
    pub nodes: Vec<NodeName>,
    pub clauses: Vec<ClauseName>,
}

/// Where a node stands, and the sign that stands for it and others.
#[derive(Clone, Copy, Debug, Default)]
pub struct NodeName {
    pub place: Place,
    pub sign: Option<&'static str>,
}

/// Where a clause stands, and its label.
#[derive(Clone, Debug, Default)]
pub struct ClauseName {
    pub place: Place,
    pub label: Option<String>,
}

impl Rulebook {
    pub fn scope_named(&self, name: &str) -> Option<usize> {
        self.names.iter().position(|names| names.scope.text == name)
    }

    /// Number of the scope that a sub-scope calls.
    pub fn callee(&self, scope: usize, subscope: u8) -> usize {
        usize::from(self.scopes[scope].subscopes[usize::from(subscope)])
    }

    /// `variable` or `sub-scope.variable`.
    pub fn variable_name(&self, scope: usize, subscope: u8, variable: u8) -> String {
        let names = &self.names[scope];
        let variable = usize::from(variable);
        if subscope == NONE {
            return names.variables[variable].text.clone();
        }
        let callee = &self.names[self.callee(scope, subscope)];
        let subscope = &names.subscopes[usize::from(subscope)].text;
        format!("{subscope}.{}", callee.variables[variable].text)
    }

    pub fn target_name(&self, scope: usize, target: Target) -> String {
        self.variable_name(scope, target.subscope, target.variable)
    }
}

/// The words for a type.
pub fn type_name(of: Type) -> &'static str {
    match of {
        Type::YesNo => "yes/no",
        Type::Number => "number",
    }
}
