//! Types of nodes, with the type of an `empty` or `conflict` taken from where it
//! stands; and rules and definitions on one target.

use crate::names::Resolved;
use crate::place::{Fault, Faults};
use crate::rulebook::type_name;
use second::kind::{self, NONE};
use second::scope::{Clause, Consequence, Node, Target};
use second::trees::target_index;
use second::value::Type;
use std::collections::HashMap;

/// Settles every type, or says which do not fit.
pub fn check_types(scopes: &mut [Resolved]) -> Result<(), Vec<Fault>> {
    let variables: Vec<Vec<Type>> = scopes.iter().map(|s| s.variables.clone()).collect();
    let mut faults = Faults::default();
    for scope in scopes {
        let settled = settle(scope, &variables, &mut faults);
        scope.nodes.iter_mut().zip(settled).for_each(write_type);
    }
    faults.settled()
}

fn write_type((node, of): (&mut Node, Option<Type>)) {
    if let (Node::Empty(own) | Node::Conflict(own), Some(of)) = (node, of) {
        *own = of;
    }
}

/// What a place wants of the node in it.
#[derive(Clone)]
struct Wanted {
    of: Type,
    by: String,
}

struct Typing<'a> {
    scope: &'a Resolved,
    variables: &'a [Vec<Type>],
    /// Types as far as the nodes themselves say; operands come first.
    own: Vec<Option<Type>>,
    wanted: Vec<Option<Wanted>>,
}

fn settle(scope: &Resolved, variables: &[Vec<Type>], faults: &mut Faults) -> Vec<Option<Type>> {
    let count = scope.nodes.len();
    let mut typing = Typing {
        scope,
        variables,
        own: Vec::with_capacity(count),
        wanted: vec![None; count],
    };
    for number in 0..count {
        let own = typing.own_type(number);
        typing.own.push(own);
    }
    for (number, clause) in scope.clauses.iter().enumerate() {
        typing.clause(number, clause, faults);
    }
    (0..count).rev().for_each(|n| typing.node(n, faults));
    typing.own
}

impl Typing<'_> {
    fn target_type(&self, target: Target) -> Option<Type> {
        let variables = match target.subscope {
            NONE => &self.scope.variables,
            k => &self.variables[usize::from(self.scope.subscopes[usize::from(k)])],
        };
        variables.get(usize::from(target.variable)).copied()
    }

    fn own_type(&self, number: usize) -> Option<Type> {
        let own = |node: u8| self.own[usize::from(node)];
        match self.scope.nodes[number] {
            Node::Constant(_) => Some(Type::YesNo),
            Node::Number(_) => Some(Type::Number),
            Node::Own(variable) => self.target_type(Target {
                subscope: NONE,
                variable,
            }),
            Node::Subscope(subscope, variable) => self.target_type(Target { subscope, variable }),
            Node::Empty(of) | Node::Conflict(of) => self.scope.typed[number].then_some(of),
            Node::Unary(kind::NOT, _) => Some(Type::YesNo),
            Node::Unary(..) | Node::Binary(kind::ADD | kind::SUBTRACT, ..) => Some(Type::Number),
            Node::Binary(..) => Some(Type::YesNo),
            Node::If(_, then, other) => own(then).or(own(other)),
            Node::Default(exceptions, _, consequence) => {
                let mut present = exceptions.into_iter().filter(|&e| e != NONE);
                own(consequence).or_else(|| present.find_map(own))
            }
        }
    }

    fn want(&mut self, node: u8, of: Type, by: impl Into<String>) {
        let by = by.into();
        self.wanted[usize::from(node)] = Some(Wanted { of, by });
    }

    /// "Conditions are yes/no; a consequence has its target's type".
    fn clause(&mut self, number: usize, clause: &Clause, faults: &mut Faults) {
        if clause.condition != NONE {
            self.want(clause.condition, Type::YesNo, "a condition");
        }
        let Some(of) = self.target_type(clause.target) else {
            return;
        };
        match clause.consequence {
            Consequence::Node(node) => self.want(node, of, "the variable defined"),
            Consequence::Constant(_) if of == Type::Number => {
                let place = self.scope.names.clauses[number].place;
                let message = "a rule is for a yes/no variable, and this one is a number";
                faults.add(place, message);
            }
            Consequence::Constant(_) => {}
        }
    }

    /// Compares the node's type with the wanted one and asks for its operands'.
    fn node(&mut self, number: usize, faults: &mut Faults) {
        let place = self.scope.names.nodes[number].place;
        let of = match (self.own[number], &self.wanted[number]) {
            (Some(own), Some(wanted)) if own != wanted.of => {
                let (by, of, own) = (&wanted.by, type_name(wanted.of), type_name(own));
                faults.add(place, format!("{by} is a {of}, and this is a {own}"));
                self.own[number]
            }
            (own, wanted) => own.or(wanted.as_ref().map(|wanted| wanted.of)),
        };
        let Some(of) = of else {
            let message = "the type is not clear here: say which, as in 'empty number'";
            return faults.add(place, message);
        };
        self.own[number] = Some(of);
        self.ask(number, of);
    }

    /// What a node of a type wants of its operands.
    fn ask(&mut self, number: usize, of: Type) {
        let sign = self.scope.names.nodes[number].sign;
        match self.scope.nodes[number] {
            Node::Unary(kind::NOT, a) => {
                let sign = sign.unwrap_or("not");
                self.want(a, Type::YesNo, format!("what '{sign}' takes"));
            }
            Node::Unary(_, a) => self.want(a, Type::Number, "what '-' takes"),
            Node::Binary(kind::EQUAL, a, b) => self.ask_equal(a, b, sign.unwrap_or("=")),
            Node::Binary(kind, a, b) => {
                let (operands, own) = operands_of(kind);
                let by = format!("what '{}' takes", sign.unwrap_or(own));
                self.want(a, operands, by.clone());
                self.want(b, operands, by);
            }
            Node::If(condition, then, other) => {
                self.want(condition, Type::YesNo, "the condition of an 'if'");
                self.want(then, of, "the value of this 'if'");
                self.want(other, of, "the value of this 'if'");
            }
            Node::Default(exceptions, justification, consequence) => {
                for exception in exceptions.into_iter().filter(|&e| e != NONE) {
                    self.want(exception, of, "the value of this default");
                }
                self.want(justification, Type::YesNo, "a justification");
                self.want(consequence, of, "the value of this default");
            }
            _ => {}
        }
    }

    /// "Equal takes two of one type": that of the left one where it is clear.
    fn ask_equal(&mut self, a: u8, b: u8, sign: &str) {
        let own = |node: u8| self.own[usize::from(node)];
        if let Some(of) = own(a).or(own(b)) {
            self.want(a, of, format!("the other side of '{sign}'"));
            self.want(b, of, format!("the other side of '{sign}'"));
        }
    }
}

/// What an operation takes, and its sign.
fn operands_of(kind: u8) -> (Type, &'static str) {
    match kind {
        kind::AND => (Type::YesNo, "and"),
        kind::ADD => (Type::Number, "+"),
        kind::SUBTRACT => (Type::Number, "-"),
        _ => (Type::Number, "<"),
    }
}

/// "Rule and definition on one target".
pub fn check_mixed(scopes: &[Resolved]) -> Result<(), Vec<Fault>> {
    let mut faults = Faults::default();
    for scope in scopes {
        let mut first: HashMap<usize, usize> = HashMap::new();
        for (number, clause) in scope.clauses.iter().enumerate() {
            let earlier = *first.entry(target_index(clause.target)).or_insert(number);
            if scope.clauses[earlier].is_rule() != clause.is_rule() {
                let message = format!(
                    "a variable has definitions or rules, not both: see {}",
                    scope.names.clauses[earlier].place
                );
                faults.add(scope.names.clauses[number].place, message);
            }
        }
    }
    faults.settled()
}
