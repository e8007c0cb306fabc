//! Names to numbers: every name must name one thing, declared before or after its use.

use crate::nearest::{did_you_mean, yes_no_word};
use crate::place::{Fault, Faults};
use crate::rulebook::{ClauseName, Names, NodeName};
use crate::syntax::{self, Clause, Consequence, Exception, Form, Reference, Scope, Word};
use second::kind::NONE;
use second::scope::{self, Node, Target};
use second::value::Type;
use std::collections::HashMap;

/// A scope with numbers for names. Nodes are still in the order written, and a
/// raise without a type has none yet.
#[derive(Debug, Default)]
pub struct Resolved {
    pub variables: Vec<Type>,
    pub subscopes: Vec<u8>,
    pub nodes: Vec<Node>,
    /// Whether the type of a raise is written.
    pub typed: Vec<bool>,
    pub clauses: Vec<scope::Clause>,
    pub names: Names,
}

/// Resolves all scopes, or says every name that is unknown or used twice.
pub fn resolve(scopes: &[Scope]) -> Result<Vec<Resolved>, Vec<Fault>> {
    let mut faults = Faults::default();
    let numbers = distinct(scopes.iter().map(|s| &s.name), "scope", &mut faults);
    let tables: Vec<Table> = scopes
        .iter()
        .map(|scope| Table::of(scope, &numbers, &mut faults))
        .collect();
    let resolved = (0..scopes.len())
        .map(|number| resolve_scope(scopes, &tables, number, &mut faults))
        .collect();
    faults.settled().map(|()| resolved)
}

/// Numbers of names, each of which may stand once.
fn distinct<'a>(
    words: impl Iterator<Item = &'a Word>,
    what: &str,
    faults: &mut Faults,
) -> HashMap<&'a str, usize> {
    let mut numbers = HashMap::new();
    let mut first: HashMap<&str, &Word> = HashMap::new();
    for (number, word) in words.enumerate() {
        match first.get(word.text.as_str()) {
            Some(earlier) => {
                let message = format!(
                    "the {what} '{}' is there already, at {}",
                    word.text, earlier.place
                );
                faults.add(word.place, message);
            }
            None => {
                first.insert(&word.text, word);
                numbers.insert(word.text.as_str(), number);
            }
        }
    }
    numbers
}

/// The names of one scope.
struct Table<'a> {
    variables: HashMap<&'a str, usize>,
    subscopes: HashMap<&'a str, usize>,
    /// The scope that each sub-scope calls, if there is one of that name.
    calls: Vec<Option<usize>>,
    labels: HashMap<&'a str, usize>,
}

impl<'a> Table<'a> {
    fn of(scope: &'a Scope, numbers: &HashMap<&str, usize>, faults: &mut Faults) -> Table<'a> {
        let variables = scope.variables.iter().map(|v| &v.name);
        let variables = distinct(variables, "variable", faults);
        let subscopes = distinct(scope.subscopes.iter().map(|s| &s.name), "sub-scope", faults);
        let both = scope.subscopes.iter().map(|s| &s.name);
        for word in both.filter(|word| variables.contains_key(word.text.as_str())) {
            let message = format!("'{}' is a variable of this scope already", word.text);
            faults.add(word.place, message);
        }
        let mut calls = Vec::new();
        for subscope in &scope.subscopes {
            let called = numbers.get(subscope.calls.text.as_str()).copied();
            if called.is_none() {
                let name = &subscope.calls.text;
                let hint = did_you_mean(name, numbers.keys().copied());
                let message = format!("there is no scope '{name}'{hint}");
                faults.add(subscope.calls.place, message);
            }
            calls.push(called);
        }
        Table {
            variables,
            subscopes,
            calls,
            labels: labels(scope, faults),
        }
    }
}

/// The clause of each label.
fn labels<'a>(scope: &'a Scope, faults: &mut Faults) -> HashMap<&'a str, usize> {
    let labelled = |(number, clause): (usize, &'a Clause)| Some((number, clause.label.as_ref()?));
    let labelled: Vec<_> = scope
        .clauses
        .iter()
        .enumerate()
        .filter_map(labelled)
        .collect();
    let places = distinct(labelled.iter().map(|&(_, label)| label), "label", faults);
    let clause = |(label, place): (&'a str, usize)| (label, labelled[place].0);
    places.into_iter().map(clause).collect()
}

/// Stands for a name that is unknown; a text with one goes no further.
const UNKNOWN: Target = Target {
    subscope: NONE,
    variable: NONE,
};

struct Resolver<'a> {
    scopes: &'a [Scope],
    tables: &'a [Table<'a>],
    number: usize,
    faults: &'a mut Faults,
}

fn resolve_scope(
    scopes: &[Scope],
    tables: &[Table],
    number: usize,
    faults: &mut Faults,
) -> Resolved {
    let scope = &scopes[number];
    let mut resolver = Resolver {
        scopes,
        tables,
        number,
        faults,
    };
    let nodes = scope.nodes.iter();
    let nodes: Vec<Node> = nodes.map(|node| resolver.node(&node.form)).collect();
    let mut clauses = Vec::new();
    for clause in &scope.clauses {
        let resolved = resolver.clause(&clauses, clause);
        clauses.push(resolved);
    }
    let calls = tables[number].calls.iter();
    Resolved {
        variables: scope.variables.iter().map(|v| v.of).collect(),
        subscopes: calls.map(|called| called.unwrap_or(0) as u8).collect(),
        typed: scope
            .nodes
            .iter()
            .map(|node| is_typed(&node.form))
            .collect(),
        nodes,
        clauses,
        names: names_of(scope),
    }
}

fn is_typed(form: &Form) -> bool {
    !matches!(form, Form::Raise(_, None))
}

fn node_name(node: &syntax::Node) -> NodeName {
    NodeName {
        place: node.place,
        sign: node.sign,
    }
}

fn names_of(scope: &Scope) -> Names {
    let clause = |clause: &Clause| ClauseName {
        place: clause.place,
        label: clause.label.as_ref().map(|label| label.text.clone()),
    };
    Names {
        scope: scope.name.clone(),
        variables: scope.variables.iter().map(|v| v.name.clone()).collect(),
        subscopes: scope.subscopes.iter().map(|s| s.name.clone()).collect(),
        nodes: scope.nodes.iter().map(node_name).collect(),
        clauses: scope.clauses.iter().map(clause).collect(),
    }
}

impl Resolver<'_> {
    /// A node with numbers of operands as written.
    fn node(&mut self, form: &Form) -> Node {
        match *form {
            Form::Constant(yes) => Node::Constant(yes),
            Form::Number(n) => Node::Number(n),
            Form::Read(ref reference) => {
                let target = self.target(reference);
                match target.subscope {
                    NONE => Node::Own(target.variable),
                    subscope => Node::Subscope(subscope, target.variable),
                }
            }
            Form::Raise(second::kind::EMPTY, of) => Node::Empty(of.unwrap_or(Type::Number)),
            Form::Raise(_, of) => Node::Conflict(of.unwrap_or(Type::Number)),
            Form::Unary(kind, a) => Node::Unary(kind, a as u8),
            Form::Binary(kind, a, b) => Node::Binary(kind, a as u8, b as u8),
            Form::If(a, b, c) => Node::If(a as u8, b as u8, c as u8),
            Form::Default(exceptions, j, c) => {
                let exceptions = exceptions.map(|e| e.map_or(NONE, |e| e as u8));
                Node::Default(exceptions, j as u8, c as u8)
            }
        }
    }

    fn target(&mut self, reference: &Reference) -> Target {
        match self.lookup(reference) {
            Ok(target) => target,
            Err(fault) => {
                self.faults.0.push(fault);
                UNKNOWN
            }
        }
    }

    fn lookup(&self, reference: &Reference) -> Result<Target, Fault> {
        let table = &self.tables[self.number];
        let name = &reference.variable;
        let Some(subscope) = &reference.subscope else {
            let found = table.variables.get(name.text.as_str());
            let target = found.map(|&variable| Target {
                subscope: NONE,
                variable: variable as u8,
            });
            return target.ok_or_else(|| self.no_variable(name));
        };
        let Some(&number) = table.subscopes.get(subscope.text.as_str()) else {
            let name = &subscope.text;
            let hint = did_you_mean(name, table.subscopes.keys().copied());
            let message = format!("there is no sub-scope '{name}' in this scope{hint}");
            return Err(Fault::at(subscope.place, message));
        };
        let Some(callee) = table.calls[number] else {
            // Its scope is unknown; that is said where it is declared.
            return Ok(UNKNOWN);
        };
        let found = self.tables[callee].variables.get(name.text.as_str());
        let target = found.map(|&variable| Target {
            subscope: number as u8,
            variable: variable as u8,
        });
        target.ok_or_else(|| {
            let scope = &self.scopes[callee].name.text;
            let known = self.tables[callee].variables.keys().copied();
            let hint = did_you_mean(&name.text, known);
            let message = format!(
                "there is no variable '{}' in scope '{scope}'{hint}",
                name.text
            );
            Fault::at(name.place, message)
        })
    }

    fn no_variable(&self, name: &Word) -> Fault {
        let text = &name.text;
        let is_subscope = self.tables[self.number]
            .subscopes
            .contains_key(text.as_str());
        let message = match is_subscope {
            true => format!("'{text}' is a sub-scope; name one of its variables: {text}.x"),
            false => {
                let hint = self.instead(text);
                format!("there is no variable '{text}' in this scope{hint}")
            }
        };
        Fault::at(name.place, message)
    }

    /// What may be meant by a name that no variable of the scope has: a word, a variable of
    /// a sub-scope, a name that is nearly the same.
    fn instead(&self, name: &str) -> String {
        if let Some(word) = yes_no_word(name) {
            return format!("; write '{word}'");
        }
        let table = &self.tables[self.number];
        let called = table.subscopes.iter().filter(|(_, &k)| {
            let callee = table.calls[k];
            callee.is_some_and(|callee| self.tables[callee].variables.contains_key(name))
        });
        match called.min_by_key(|(_, &k)| k) {
            Some((subscope, _)) => format!("; did you mean '{subscope}.{name}'?"),
            None => did_you_mean(name, table.variables.keys().copied()),
        }
    }

    fn clause(&mut self, earlier: &[scope::Clause], clause: &Clause) -> scope::Clause {
        let target = self.target(&clause.target);
        let parent = self
            .parent(earlier, clause, target)
            .unwrap_or_else(|fault| {
                self.faults.0.push(fault);
                NONE
            });
        scope::Clause {
            target,
            parent,
            condition: clause.condition.map_or(NONE, |node| node as u8),
            consequence: match clause.consequence {
                Consequence::Node(node) => scope::Consequence::Node(node as u8),
                Consequence::Constant(yes) => scope::Consequence::Constant(yes),
            },
        }
    }

    /// The clause that this one is an exception to: an earlier one of the same target.
    fn parent(
        &self,
        earlier: &[scope::Clause],
        clause: &Clause,
        target: Target,
    ) -> Result<u8, Fault> {
        let (parent, place, called) = match &clause.exception {
            None => return Ok(NONE),
            Some(Exception::ToTheClauseBefore(place)) => {
                let before = earlier.len().checked_sub(1);
                let message = "an exception needs a definition or rule before it";
                let before = before.ok_or_else(|| Fault::at(*place, message))?;
                (before, *place, "the clause before this one".to_string())
            }
            Some(Exception::To(label)) => {
                let found = self.tables[self.number].labels.get(label.text.as_str());
                let message = || {
                    let labels = self.tables[self.number].labels.keys().copied();
                    let hint = did_you_mean(&label.text, labels);
                    format!("there is no label '{}' in this scope{hint}", label.text)
                };
                let found = *found.ok_or_else(|| Fault::at(label.place, message()))?;
                (found, label.place, format!("'{}'", label.text))
            }
        };
        let Some(found) = earlier.get(parent) else {
            let message = format!("{called} does not stand before this exception to it");
            return Err(Fault::at(place, message));
        };
        let known = found.target != UNKNOWN && target != UNKNOWN;
        if known && found.target != target {
            let message = format!("{called} defines another variable than this exception to it");
            return Err(Fault::at(place, message));
        }
        Ok(parent as u8)
    }
}
