//! A short explanation: what decided each result. Inputs stand in the heading, variables
//! with one definition in one line; of a called scope only what is read of it, or what an
//! override fell back to, is told.

use crate::evaluation::{enter, Entry, Fate, Joined, Taken, Tree, Trial};
use crate::explain::{deciding, ending, heading, line, Explanation};
use crate::inputs::Given;
use crate::overrides::Fallback;
use crate::rulebook::Rulebook;
use crate::words;
use second::kind::NONE;
use second::scope::{Clause, Consequence, Node, Target};
use second::value::Value;

/// Explains the evaluation of a scope in few lines; the file is named once.
pub fn explain_briefly(book: &Rulebook, file: &str, scope: usize, given: Given) -> String {
    let mut text = format!("{file}: {}\n", heading(book, scope, &given));
    let entry = enter(book, scope, given);
    let mut brief = Brief {
        book,
        calls: Vec::new(),
    };
    brief.entry(&mut text, 0, &entry, None);
    let end = match entry.failure {
        None => "every variable has a value".to_string(),
        Some(failure) => format!("the run ends {}", ending(failure)),
    };
    text + &format!("{end}; scopes entered: {}\n", entry.count())
}

struct Brief<'a> {
    book: &'a Rulebook,
    /// Calls that were told: the sub-scope's name, the scope, what was handed over.
    calls: Vec<(String, usize, Vec<Option<Value>>)>,
}

impl Brief<'_> {
    /// The results of an entered scope; of a called one only those that are `read`.
    fn entry(&mut self, text: &mut String, depth: usize, entry: &Entry, read: Option<&[u8]>) {
        let words = Explanation {
            book: self.book,
            file: "",
            entry,
            given: "given",
        };
        let mut plain = Vec::new();
        for taken in &entry.taken {
            match taken {
                Taken::Given(..) => {}
                Taken::Variable(tree) if is_plain(self.book, entry.scope, tree) => {
                    plain.extend(self.value(entry, tree).filter(|_| is_read(tree, read)));
                }
                Taken::Variable(tree) if tree.result.is_err() || is_read(tree, read) => {
                    line(text, depth, &words.decided(tree));
                }
                Taken::Variable(_) => {}
                Taken::Call(k, overrides, called) => {
                    self.call(text, depth, &words, *k, overrides, called.as_ref());
                }
            }
        }
        if !plain.is_empty() {
            let all = plain.join(", ");
            line(text, depth, &format!("by its one definition: {all}"));
        }
    }

    /// `name = value` of a tree that has one.
    fn value(&self, entry: &Entry, tree: &Tree) -> Option<String> {
        let name = self.book.target_name(entry.scope, tree.target);
        let value = words::value(tree.result.ok()?);
        Some(format!("{name} = {value}"))
    }

    fn call(
        &mut self,
        text: &mut String,
        depth: usize,
        words: &Explanation,
        k: u8,
        overrides: &[Tree],
        called: Option<&Entry>,
    ) {
        let scope = words.entry.scope;
        let callee = self.book.callee(scope, k);
        let given = given_to(self.book, callee, overrides);
        let mut known = self.calls.iter();
        let known = known.find(|(_, s, g)| called.is_some() && *s == callee && *g == given);
        let same = known.map(|(other, _, _)| format!(", the same as {other}"));
        let heading = call_heading(self.book, scope, k, overrides);
        line(text, depth, &(heading + same.as_deref().unwrap_or("")));
        for tree in overrides {
            if let Some(fallback) = Fallback::of(tree, called) {
                let over = words.passed_over(&tree.bases);
                line(text, depth + 1, &(words.fell_back(tree, &fallback) + &over));
            } else if same.is_none() && !is_plain(self.book, scope, tree) {
                line(text, depth + 1, &words.decided(tree));
            }
        }
        if same.is_some() {
            return;
        }
        let name = &self.book.names[scope].subscopes[usize::from(k)].text;
        self.calls.push((name.clone(), callee, given));
        if let Some(called) = called {
            let mut read = reads_of(self.book, scope, k);
            let fallen = overrides.iter().filter(|tree| tree.result.is_err());
            read.extend(fallen.map(|tree| tree.target.variable));
            self.entry(text, depth + 1, called, Some(&read));
        }
    }
}

/// `print: scope film, with shrunken = yes`.
fn call_heading(book: &Rulebook, scope: usize, k: u8, overrides: &[Tree]) -> String {
    let name = &book.names[scope].subscopes[usize::from(k)].text;
    let called = &book.names[book.callee(scope, k)].scope.text;
    let handed = handed_over(book, scope, overrides);
    match handed.is_empty() {
        true => format!("{name}: scope {called}"),
        false => format!("{name}: scope {called}, with {}", handed.join(", ")),
    }
}

/// Whether a tree is one definition without condition and exception.
fn is_plain(book: &Rulebook, scope: usize, tree: &Tree) -> bool {
    let mut clauses = book.scopes[scope].clauses.iter();
    let own: Vec<&Clause> = clauses
        .by_ref()
        .filter(|c| c.target == tree.target)
        .collect();
    let one = matches!(own[..], [clause] if clause.condition == NONE && !clause.is_rule());
    one && tree.result.is_ok()
}

fn is_read(tree: &Tree, read: Option<&[u8]>) -> bool {
    read.is_none_or(|read| read.contains(&tree.target.variable))
}

/// The variables of a sub-scope that its caller reads.
fn reads_of(book: &Rulebook, scope: usize, subscope: u8) -> Vec<u8> {
    let nodes = book.scopes[scope].nodes.iter();
    let read = |node: &Node| match *node {
        Node::Subscope(k, variable) if k == subscope => Some(variable),
        _ => None,
    };
    nodes.filter_map(read).collect()
}

/// `name = value` of each override that is one definition.
fn handed_over(book: &Rulebook, scope: usize, overrides: &[Tree]) -> Vec<String> {
    let plain = overrides.iter().filter(|tree| is_plain(book, scope, tree));
    let word = |tree: &Tree| {
        let Target { subscope, variable } = tree.target;
        let callee = book.callee(scope, subscope);
        let name = &book.names[callee].variables[usize::from(variable)].text;
        Some(format!("{name} = {}", words::value(tree.result.ok()?)))
    };
    plain.filter_map(word).collect()
}

fn given_to(book: &Rulebook, callee: usize, overrides: &[Tree]) -> Vec<Option<Value>> {
    let mut given = vec![None; book.scopes[callee].variables.len()];
    for tree in overrides {
        given[usize::from(tree.target.variable)] = tree.result.ok();
    }
    given
}

impl Explanation<'_> {
    /// One line about a target: its value and the clause that gave it, with its reason.
    fn decided(&self, tree: &Tree) -> String {
        let name = self.book.target_name(self.entry.scope, tree.target);
        match (tree.result, tree.bases.joined) {
            (Ok(value), Joined::One(place)) => {
                let trial = deciding(&tree.bases, place);
                let clause = self.clause_name(trial.clause);
                format!(
                    "{name} = {}, by {clause}{}",
                    words::value(value),
                    self.reason(trial)
                )
            }
            (Ok(value), _) => format!("{name} = {}, since no rule held", words::value(value)),
            (Err(failure), _) => {
                let why = self.why_beyond(&tree.bases);
                let why = why.unwrap_or_else(|| self.why_none(&tree.bases));
                let over = self.passed_over(&tree.bases);
                format!("{name} is {}: {why}{over}", words::failure(failure))
            }
        }
    }

    /// Why a clause held, and what it says where that is to be worked out.
    fn reason(&self, trial: &Trial) -> String {
        let clause = &self.book.scopes[self.entry.scope].clauses[usize::from(trial.clause)];
        let condition = match clause.condition {
            NONE => String::new(),
            node => format!(": {}", self.is(node, "yes")),
        };
        let nodes = &self.book.scopes[self.entry.scope].nodes;
        let says = match (trial.fate, clause.consequence) {
            (Some(Fate::Held), Consequence::Node(node))
                if nodes[usize::from(node)].operands().next().is_some() =>
            {
                let (expression, reads) = self.expression(node);
                format!("; it says {expression}{reads}")
            }
            _ => String::new(),
        };
        condition + &says
    }
}
