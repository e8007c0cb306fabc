//! A text as parsed: names are still words, nodes stand in the order written.

use crate::place::Place;
use second::value::Type;

/// A name and where it stands.
#[derive(Clone, Debug, Default)]
pub struct Word {
    pub text: String,
    pub place: Place,
}

/// A file is scopes, or a book as plain records.
#[derive(Debug)]
pub enum File {
    Scopes(Vec<Scope>),
    Records(Vec<Record>),
}

/// Kind and body of a record.
#[derive(Debug)]
pub struct Record {
    pub place: Place,
    pub bytes: Vec<u8>,
}

#[derive(Debug, Default)]
pub struct Scope {
    pub name: Word,
    pub variables: Vec<Variable>,
    pub subscopes: Vec<Subscope>,
    /// Operands before their node, the left one first.
    pub nodes: Vec<Node>,
    pub clauses: Vec<Clause>,
}

#[derive(Debug)]
pub struct Variable {
    pub name: Word,
    pub of: Type,
}

#[derive(Debug)]
pub struct Subscope {
    pub name: Word,
    pub calls: Word,
}

/// A variable of the scope, or of a sub-scope.
#[derive(Clone, Debug)]
pub struct Reference {
    pub subscope: Option<Word>,
    pub variable: Word,
}

impl Reference {
    pub fn place(&self) -> Place {
        match &self.subscope {
            Some(subscope) => subscope.place,
            None => self.variable.place,
        }
    }
}

#[derive(Debug)]
pub struct Node {
    pub place: Place,
    pub form: Form,
    /// The number that `@` fixes, and where.
    pub fixed: Option<(u8, Place)>,
    /// The sign that stands for this node and others; see `operations`.
    pub sign: Option<&'static str>,
}

/// What a node is; operands are places in the scope's list of nodes.
#[derive(Debug)]
pub enum Form {
    Constant(bool),
    Number(i32),
    Read(Reference),
    /// Kind 8 or 9, with its type where it is written.
    Raise(u8, Option<Type>),
    /// Kind 10 or 11.
    Unary(u8, usize),
    /// Kind 12 to 16.
    Binary(u8, usize, usize),
    If(usize, usize, usize),
    Default([Option<usize>; 3], usize, usize),
}

impl Form {
    /// Gives every operand another place.
    pub fn rename(&mut self, place: impl Fn(usize) -> usize) {
        match self {
            Form::Constant(_) | Form::Number(_) | Form::Read(_) | Form::Raise(..) => {}
            Form::Unary(_, a) => *a = place(*a),
            Form::Binary(_, a, b) => (*a, *b) = (place(*a), place(*b)),
            Form::If(a, b, c) => (*a, *b, *c) = (place(*a), place(*b), place(*c)),
            Form::Default(exceptions, j, c) => {
                *exceptions = exceptions.map(|e| e.map(&place));
                (*j, *c) = (place(*j), place(*c));
            }
        }
    }
}

#[derive(Debug)]
pub struct Clause {
    pub place: Place,
    pub label: Option<Word>,
    pub exception: Option<Exception>,
    pub target: Reference,
    pub condition: Option<usize>,
    pub consequence: Consequence,
}

#[derive(Debug)]
pub enum Exception {
    ToTheClauseBefore(Place),
    To(Word),
}

/// The node of a definition, or what a rule says.
#[derive(Clone, Copy, Debug)]
pub enum Consequence {
    Node(usize),
    Constant(bool),
}
