//! An evaluation in plain words: what each variable came to, which clause gave it,
//! which were passed over and why.

use crate::evaluation::{enter, Entry, Fate, Joined, Row, Taken, Tree, Trial};
use crate::inputs::{given_words, Given};
use crate::overrides::Fallback;
use crate::printer::Expressions;
use crate::rulebook::Rulebook;
use crate::terms::Terms;
use crate::words;
use second::kind::NONE;
use second::scope::{Clause, Consequence, Node, Target};
use second::steps::Step;
use second::value::Failure;

/// `scope film, given shrunken = yes`.
pub(crate) fn heading(book: &Rulebook, scope: usize, given: &Given) -> String {
    let name = &book.names[scope].scope.text;
    let inputs = given_words(book, scope, given);
    match inputs.is_empty() {
        true => format!("scope {name}, nothing given"),
        false => format!("scope {name}, given {}", inputs.join(", ")),
    }
}

/// Explains the evaluation of a scope in full; `file` is named before each place.
pub fn explain(book: &Rulebook, file: &str, scope: usize, given: Given) -> String {
    let mut text = format!("{}\n", heading(book, scope, &given));
    let entry = enter(book, scope, given);
    let writer = Explanation {
        book,
        file,
        entry: &entry,
        given: "given",
    };
    writer.entry(&mut text, 0);
    let end = match entry.failure {
        None => "every variable has a value".to_string(),
        Some(failure) => format!("the run ends {}", ending(failure)),
    };
    text + &format!("{end}; scopes entered: {}\n", entry.count())
}

pub(crate) fn ending(failure: Failure) -> &'static str {
    match failure {
        Failure::Empty => "empty: something needed has no value",
        failure => words::failure(failure),
    }
}

/// Writes about one entered scope.
pub(crate) struct Explanation<'a> {
    pub(crate) book: &'a Rulebook,
    /// Named before each place, unless it is empty.
    pub(crate) file: &'a str,
    pub(crate) entry: &'a Entry,
    /// How a variable with a value from outside got it.
    pub(crate) given: &'static str,
}

pub(crate) fn line(text: &mut String, depth: usize, words: &str) {
    *text += &format!("{}{words}\n", "  ".repeat(depth));
}

impl Explanation<'_> {
    fn entry(&self, text: &mut String, depth: usize) {
        for taken in &self.entry.taken {
            match taken {
                Taken::Given(variable, value) => {
                    let name = self.book.variable_name(self.entry.scope, NONE, *variable);
                    let value = words::value(*value);
                    line(text, depth, &format!("{name} = {value}, {}", self.given));
                }
                Taken::Variable(tree) => self.tree(text, depth, &self.came_to(tree), tree),
                Taken::Call(subscope, overrides, entry) => {
                    self.call(text, depth, *subscope, overrides, entry.as_ref());
                }
            }
        }
        if !self.entry.left.is_empty() {
            let left: Vec<String> = self.entry.left.iter().map(|&s| self.step_name(s)).collect();
            line(text, depth, &format!("not reached: {}", left.join(", ")));
        }
    }

    fn step_name(&self, step: Step) -> String {
        let names = &self.book.names[self.entry.scope];
        match step {
            Step::Variable(variable) => names.variables[variable].text.clone(),
            Step::Call(subscope) => format!("the call of {}", names.subscopes[subscope].text),
        }
    }

    fn call(
        &self,
        text: &mut String,
        depth: usize,
        subscope: u8,
        overrides: &[Tree],
        entry: Option<&Entry>,
    ) {
        let callee = self.book.callee(self.entry.scope, subscope);
        let called = &self.book.names[callee].scope.text;
        let name = &self.book.names[self.entry.scope].subscopes[usize::from(subscope)].text;
        line(text, depth, &format!("call of {name}, scope {called}"));
        for tree in overrides {
            let heading = match Fallback::of(tree, entry) {
                Some(fallback) => self.fell_back(tree, &fallback),
                None => self.came_to(tree),
            };
            self.tree(text, depth + 1, &format!("override {heading}"), tree);
        }
        if let Some(entry) = entry {
            let inner = Explanation {
                entry,
                given: "handed over",
                ..*self
            };
            inner.entry(text, depth + 1);
        }
    }

    /// The heading and a line for each clause.
    fn tree(&self, text: &mut String, depth: usize, heading: &str, tree: &Tree) {
        line(text, depth, heading);
        self.row(text, depth + 1, NONE, tree.target, &tree.bases);
    }

    /// What a target came to, and by which clause.
    fn came_to(&self, tree: &Tree) -> String {
        let name = self.book.target_name(self.entry.scope, tree.target);
        match tree.result {
            Ok(value) => format!("{name} = {}, {}", words::value(value), self.by(&tree.bases)),
            Err(failure) => {
                let why = self.why_none(&tree.bases);
                format!("{name} is {}: {why}", words::failure(failure))
            }
        }
    }

    /// What gave a target its value.
    fn by(&self, bases: &Row) -> String {
        match bases.joined {
            Joined::One(place) => format!("by {}", self.clause_name(giver(bases, place))),
            _ => "since no rule held".to_string(),
        }
    }

    /// Why a row has no value, down to the clause in which that began.
    pub(crate) fn why_none(&self, row: &Row) -> String {
        match row.joined {
            Joined::Nothing if row.trials.is_empty() => "nothing defines it".to_string(),
            Joined::Clash(a, b) => {
                let [a, b] = [a, b].map(|place| self.clause_name(giver(row, place)));
                format!("{a} and {b} both held")
            }
            Joined::Ended(place) if row.trials[place].fate.is_none() => {
                self.why_none(&row.trials[place].exceptions)
            }
            Joined::Ended(place) => {
                format!("so is {}", self.clause_name(row.trials[place].clause))
            }
            _ => "no definition held".to_string(),
        }
    }

    /// A line for each clause of a row, its exceptions below it; also for those not
    /// tried since one before them ended the row.
    fn row(&self, text: &mut String, depth: usize, parent: u8, target: Target, row: &Row) {
        let clauses = &self.book.scopes[self.entry.scope].clauses;
        for (number, clause) in (0u8..).zip(clauses) {
            if clause.parent != parent || clause.target != target {
                continue;
            }
            let name = self.clause_name(number);
            match row.trials.iter().find(|trial| trial.clause == number) {
                None => {
                    let words = format!("{name}: not tried, the one before ended the search");
                    line(text, depth, &words);
                }
                Some(trial) => {
                    line(
                        text,
                        depth,
                        &format!("{name}: {}", self.fate(clause, trial)),
                    );
                    self.row(text, depth + 1, number, target, &trial.exceptions);
                }
            }
        }
    }

    pub(crate) fn fate(&self, clause: &Clause, trial: &Trial) -> String {
        match trial.fate {
            None => self.by_exceptions(trial),
            Some(Fate::Held) => {
                let condition = match clause.condition {
                    NONE => "it has no condition".to_string(),
                    node => self.is(node, "yes"),
                };
                format!("held, {condition}{}", self.says(clause.consequence))
            }
            Some(Fate::ConditionNo) => {
                format!("passed over, {}", self.is(clause.condition, "no"))
            }
            Some(Fate::ConditionFailed(failure)) => self.failed(clause.condition, failure),
            Some(Fate::ConsequenceFailed(node, failure)) => self.failed(node, failure),
        }
    }

    /// A clause whose exceptions settled the matter.
    fn by_exceptions(&self, trial: &Trial) -> String {
        let row = &trial.exceptions;
        let name = |place: usize| self.named("its exception", row.trials[place].clause);
        match row.joined {
            Joined::Clash(a, b) => {
                format!("in conflict, {} and {} both gave a value", name(a), name(b))
            }
            Joined::Ended(place) => {
                let failure = trial.result.err().map_or("", words::failure);
                format!("{failure}, so is {}", name(place))
            }
            Joined::One(place) => format!("passed over, {} gave the value", name(place)),
            Joined::Nothing => "passed over".to_string(),
        }
    }

    /// A clause whose condition or consequence has no value.
    fn failed(&self, node: u8, failure: Failure) -> String {
        let word = words::failure(failure);
        let is = self.is(node, word);
        match (failure, self.beyond(node, failure)) {
            (Failure::Empty, _) => format!("passed over, {is}{}", self.empty_part(node)),
            (_, Some(beyond)) => format!("{word}, {beyond}"),
            _ => format!("{word}, {is}"),
        }
    }

    fn terms(&self) -> Terms<'_> {
        Terms {
            nodes: &self.book.scopes[self.entry.scope].nodes,
            entry: self.entry,
        }
    }

    /// The part by which an expression is empty, unless it is the whole.
    fn empty_part(&self, node: u8) -> String {
        let part = self.terms().origin(node, Failure::Empty);
        match part == node {
            true => String::new(),
            false => format!(", since {} is", self.expression(part).0),
        }
    }

    /// The operation in an expression whose result is above or below the range, and the
    /// bound that it passes: `'a + 1' is above 2147483647`.
    pub(crate) fn beyond(&self, node: u8, failure: Failure) -> Option<String> {
        let bound = words::bound(failure)?;
        Some(self.is(self.terms().origin(node, failure), &bound))
    }

    pub(crate) fn is(&self, node: u8, value: &str) -> String {
        let (expression, reads) = self.expression(node);
        format!("{expression} is {value}{reads}")
    }

    /// What a definition that held says.
    fn says(&self, consequence: Consequence) -> String {
        let Consequence::Node(node) = consequence else {
            return String::new();
        };
        let (expression, reads) = self.expression(node);
        format!(", and says {expression}{reads}")
    }

    /// An expression and, unless it is a single thing, the values that it reads.
    pub(crate) fn expression(&self, node: u8) -> (String, String) {
        let expression = Expressions::plain(self.book, self.entry.scope).node(node, 0);
        let nodes = &self.book.scopes[self.entry.scope].nodes;
        if nodes[usize::from(node)].operands().next().is_none() {
            return (expression, String::new());
        }
        let mut reads = Vec::new();
        self.add_reads(node, &mut reads);
        let reads = match reads.is_empty() {
            true => String::new(),
            false => format!(" ({})", reads.join(", ")),
        };
        (format!("'{expression}'"), reads)
    }

    /// Adds `name = value` for every variable that an expression names, once.
    fn add_reads(&self, number: u8, reads: &mut Vec<String>) {
        let scope = self.entry.scope;
        let node = &self.book.scopes[scope].nodes[usize::from(number)];
        let (subscope, variable) = match *node {
            Node::Own(variable) => (NONE, variable),
            Node::Subscope(subscope, variable) => (subscope, variable),
            _ => {
                let operands = node.operands();
                return operands.for_each(|operand| self.add_reads(operand, reads));
            }
        };
        let name = self.book.variable_name(scope, subscope, variable);
        let value = self.entry.value(subscope, variable);
        let read = format!("{name} = {}", value.map_or_else(String::new, words::value));
        if !reads.contains(&read) {
            reads.push(read);
        }
    }

    /// The clause's label, or what it is, and its place.
    pub(crate) fn clause_name(&self, number: u8) -> String {
        let clause = &self.book.scopes[self.entry.scope].clauses[usize::from(number)];
        let what = match (clause.parent, clause.is_rule()) {
            (NONE, true) => "the rule",
            (NONE, false) => "the definition",
            _ => "the exception",
        };
        self.named(what, number)
    }

    fn named(&self, what: &str, number: u8) -> String {
        let name = &self.book.names[self.entry.scope].clauses[usize::from(number)];
        let place = match self.file.is_empty() {
            true => name.place.to_string(),
            false => format!("{}:{}", self.file, name.place),
        };
        match &name.label {
            Some(label) => format!("{what} '{label}' at {place}"),
            None => format!("{what} at {place}"),
        }
    }
}

/// The trial at a place of a row, or of the exception under it, that held.
pub fn deciding(row: &Row, place: usize) -> &Trial {
    let mut trial = &row.trials[place];
    while let Joined::One(place) = trial.exceptions.joined {
        trial = &trial.exceptions.trials[place];
    }
    trial
}

/// The clause of that trial.
pub fn giver(row: &Row, place: usize) -> u8 {
    deciding(row, place).clause
}
