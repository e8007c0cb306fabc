//! A scope of a book as decoded: variables, sub-scopes, nodes and clauses.

use crate::value::Type;

/// A node; bytes are numbers of nodes, variables or sub-scopes of its scope.
#[derive(Clone, Copy, Debug)]
pub enum Node {
    Constant(bool),
    Number(i32),
    Own(u8),
    Subscope(u8, u8),
    Empty(Type),
    Conflict(Type),
    /// Kind 10 or 11, operand.
    Unary(u8, u8),
    /// Kind 12 to 16, operands.
    Binary(u8, u8, u8),
    If(u8, u8, u8),
    /// Exceptions (255: none), justification, consequence.
    Default([u8; 3], u8, u8),
}

impl Node {
    /// The numbers of the nodes it names; a missing exception names none.
    pub fn operands(&self) -> impl Iterator<Item = u8> {
        let present = |e: u8| (e != crate::kind::NONE).then_some(e);
        let names = match *self {
            Node::Unary(_, a) => [Some(a), None, None, None, None],
            Node::Binary(_, a, b) => [Some(a), Some(b), None, None, None],
            Node::If(a, b, c) => [Some(a), Some(b), Some(c), None, None],
            Node::Default([x, y, z], j, c) => {
                [present(x), present(y), present(z), Some(j), Some(c)]
            }
            _ => [None; 5],
        };
        names.into_iter().flatten()
    }
}

/// What a clause defines: an own variable (sub-scope 255) or an override.
#[derive(Clone, Copy, Debug, PartialEq, Eq)]
pub struct Target {
    pub subscope: u8,
    pub variable: u8,
}

/// A definition ends in a node, a rule in no or yes.
#[derive(Clone, Copy, Debug)]
pub enum Consequence {
    Node(u8),
    Constant(bool),
}

/// Kind 19 or 20.
#[derive(Clone, Copy, Debug)]
pub struct Clause {
    pub target: Target,
    pub parent: u8,
    pub condition: u8,
    pub consequence: Consequence,
}

impl Clause {
    pub fn is_rule(&self) -> bool {
        matches!(self.consequence, Consequence::Constant(_))
    }

    /// The nodes it names: condition unless always, consequence of a definition.
    pub fn operands(&self) -> impl Iterator<Item = u8> {
        let condition = (self.condition != crate::kind::NONE).then_some(self.condition);
        let consequence = match self.consequence {
            Consequence::Node(node) => Some(node),
            Consequence::Constant(_) => None,
        };
        condition.into_iter().chain(consequence)
    }
}

/// One scope of the book.
#[derive(Debug, Default)]
pub struct Scope {
    pub variables: Vec<Type>,
    pub subscopes: Vec<u8>,
    pub nodes: Vec<Node>,
    pub clauses: Vec<Clause>,
}

/// The variables of the scope that sub-scope `k` of `scope` names, if both are there.
pub fn variables_of<'a>(scopes: &'a [Scope], scope: &Scope, k: u8) -> Option<&'a [Type]> {
    let number = *scope.subscopes.get(usize::from(k))?;
    let named = scopes.get(usize::from(number))?;
    Some(&named.variables)
}

/// Type of the variable a target names, if it names one.
pub fn target_type(scopes: &[Scope], scope: &Scope, target: Target) -> Option<Type> {
    let variables = match target.subscope {
        crate::kind::NONE => &scope.variables,
        k => variables_of(scopes, scope, k)?,
    };
    variables.get(usize::from(target.variable)).copied()
}
