//! Warnings about rules that are a book, before a print meets them: conflicts, variables
//! that can be empty, what is never used, never holds or only repeats.

use crate::conditions::Conditions;
use crate::ending::{Cause, Ending};
use crate::output::Answer;
use crate::place::{Fault, Place};
use crate::rulebook::Rulebook;
use crate::search::{search, Found};
use second::kind::NONE;
use second::scope::{Clause, Node, Target};

/// All warnings of a book in the order of its text, and what was tried for each scope.
pub fn check(book: &Rulebook, file: &str) -> Answer {
    let (warnings, tried) = warnings(book);
    let mut text: String = warnings
        .iter()
        .map(|warning| format!("{}\n", warning.in_file(file)))
        .collect();
    tried.iter().for_each(|line| text += &format!("{line}\n"));
    let count = match warnings.len() {
        0 => "no warnings".to_string(),
        1 => "1 warning".to_string(),
        count => format!("{count} warnings"),
    };
    Answer {
        bytes: format!("{text}{count}\n").into_bytes(),
        good: warnings.is_empty(),
    }
}

/// The warnings of all scopes, and a line about what was tried for each.
pub fn warnings(book: &Rulebook) -> (Vec<Fault>, Vec<String>) {
    let found: Vec<Found> = (0..book.scopes.len()).map(|s| search(book, s)).collect();
    let mut all = Vec::new();
    let mut tried = Vec::new();
    for (scope, own) in found.iter().enumerate() {
        let about = About {
            words: Words { book, scope },
            found: own,
        };
        about.endings(&found, &mut all);
        about.possible_conflicts(&mut all);
        about.possibly_empty(&mut all);
        about.never(&found, &mut all);
        about.overrides(&found, &mut all);
        about.unused(&mut all);
        tried.push(about.tried());
    }
    all.sort_by_key(|warning| warning.place);
    (all, tried)
}

/// Words for the clauses of a scope.
pub(crate) struct Words<'a> {
    pub(crate) book: &'a Rulebook,
    pub(crate) scope: usize,
}

impl Words<'_> {
    fn clause(&self, number: u8) -> &Clause {
        &self.book.scopes[self.scope].clauses[usize::from(number)]
    }

    pub(crate) fn place(&self, clause: u8) -> Place {
        self.book.names[self.scope].clauses[usize::from(clause)].place
    }

    /// `exception 'gentle'`, `rule`.
    fn called(&self, number: u8) -> String {
        let clause = self.clause(number);
        let what = match (clause.parent, clause.is_rule()) {
            (NONE, true) => "rule",
            (NONE, false) => "definition",
            _ => "exception",
        };
        let label = &self.book.names[self.scope].clauses[usize::from(number)].label;
        match label {
            Some(label) => format!("{what} '{label}'"),
            None => what.to_string(),
        }
    }

    /// `the exception 'gentle' at 3:1`.
    fn there(&self, clause: u8) -> String {
        format!("the {} at {}", self.called(clause), self.place(clause))
    }

    pub(crate) fn target(&self, clause: u8) -> String {
        let target = self.clause(clause).target;
        self.book.target_name(self.scope, target)
    }

    /// The first clause of a target.
    pub(crate) fn first_clause(&self, target: Target) -> Option<u8> {
        let clauses = self.book.scopes[self.scope].clauses.iter();
        let found = clauses.zip(0u8..).find(|(c, _)| c.target == target);
        found.map(|(_, number)| number)
    }

    /// The place of what ended a run in this scope.
    fn place_of(&self, ending: &Ending) -> Place {
        let clause = match (ending.cause, ending.held) {
            (_, Some((_, b))) => Some(b),
            (Cause::Clause(clause, _), _) => Some(clause),
            _ => self.first_clause(ending.target),
        };
        clause.map_or_else(Place::default, |clause| self.place(clause))
    }

    /// The place of what ended a run in a called scope: the override that fell back, or the
    /// sub-scope.
    fn place_of_call(&self, call: u8, ending: &Ending) -> Place {
        let subscope = &self.book.names[self.scope].subscopes[usize::from(call)];
        let target = Target {
            subscope: call,
            ..ending.target
        };
        let here = ending.fell_back && ending.path == format!("{}.", subscope.text);
        let clause = here.then(|| self.first_clause(target)).flatten();
        clause.map_or(subscope.place, |clause| self.place(clause))
    }

    /// Why a variable can be without a value. `this` says a clause that the warning stands
    /// at.
    fn ended(&self, ending: &Ending, this: impl Fn(u8) -> String) -> String {
        let name = self.book.target_name(self.scope, ending.target);
        let name = format!("{}{name}", ending.path);
        let scope = &self.book.names[self.scope].scope.text;
        match (ending.cause, ending.held) {
            (Cause::Clause(clause, failure), _) => {
                format!("{name} can be {failure}: so is {} by itself", this(clause))
            }
            (_, Some((a, b))) => {
                let (a, b) = (self.there(a), this(b));
                format!("{name} can be in conflict: {b} and {a} both hold")
            }
            (Cause::NotGiven(_), _) if ending.fell_back => format!(
                "{name} can be empty: no definition of its override holds, \
                 and scope {scope} does not define it"
            ),
            (Cause::NotGiven(_), _) => {
                format!("{name} can be empty: it is not overridden, and nothing defines it")
            }
            _ if ending.fell_back => format!(
                "{name} can be empty: neither its override nor a definition of scope \
                 {scope} gives a value"
            ),
            _ => format!("{name} can be empty: none of its definitions gives a value"),
        }
    }
}

/// What was found about a scope.
pub(crate) struct About<'a> {
    pub(crate) words: Words<'a>,
    pub(crate) found: &'a Found,
}

impl About<'_> {
    fn tried(&self) -> String {
        let name = &self.words.book.names[self.words.scope].scope.text;
        let Found { tried, exact, .. } = *self.found;
        match (exact, tried) {
            (true, 1) => format!("scope {name}: its one case was tried"),
            (true, _) => format!("scope {name}: all {tried} cases were tried"),
            (false, _) => {
                format!("scope {name}: {tried} choices of its inputs were tried, not all")
            }
        }
    }

    pub(crate) fn clauses(&self) -> &[Clause] {
        &self.words.book.scopes[self.words.scope].clauses
    }

    fn conditions(&self) -> Conditions<'_> {
        Conditions::of(self.words.book, self.words.scope)
    }

    /// How runs ended. What a called scope shows by itself is told there alone.
    fn endings(&self, found: &[Found], all: &mut Vec<Fault>) {
        for (ending, example) in self.found.endings.values() {
            let example = for_instance(example);
            let words = &self.words;
            let warning = match ending.call {
                None => {
                    let this = |clause| format!("this {}", words.called(clause));
                    let message = words.ended(ending, this) + &example;
                    Fault::at(words.place_of(ending), message)
                }
                Some(_) if found[ending.scope].has(ending.cause) => continue,
                Some(call) => {
                    let inner = Words {
                        book: words.book,
                        scope: ending.scope,
                    };
                    let message = inner.ended(ending, |clause| inner.there(clause)) + &example;
                    Fault::at(words.place_of_call(call, ending), message)
                }
            };
            all.push(warning);
        }
    }

    fn no_example(&self) -> String {
        format!("none of the {} choices tried shows it", self.found.tried)
    }

    /// Clauses of one row that the conditions do not keep apart.
    fn possible_conflicts(&self, all: &mut Vec<Fault>) {
        if self.found.exact {
            return;
        }
        let conditions = self.conditions();
        for (a, b) in self.siblings() {
            if !self.found.has(Cause::Clash(a, b)) && conditions.can_clash(a, b) {
                let name = self.words.target(b);
                let (first, second) = (self.words.there(a), self.words.called(b));
                let message = format!(
                    "{name} may be in conflict: this {second} and {first} possibly both hold; {}",
                    self.no_example()
                );
                all.push(Fault::at(self.words.place(b), message));
            }
        }
    }

    /// Pairs of clauses of which neither is the exception of the other, in one row.
    fn siblings(&self) -> Vec<(u8, u8)> {
        let mut pairs = Vec::new();
        for (second, b) in self.clauses().iter().zip(0u8..) {
            for (first, a) in self.clauses().iter().zip(0..b) {
                if first.target == second.target && first.parent == second.parent {
                    pairs.push((a, b));
                }
            }
        }
        pairs
    }

    /// Targets of definitions whose conditions may all be no.
    fn possibly_empty(&self, all: &mut Vec<Fault>) {
        if self.found.exact {
            return;
        }
        let conditions = self.conditions();
        for (clause, number) in self.clauses().iter().zip(0u8..) {
            let target = clause.target;
            if self.words.first_clause(target) != Some(number) || clause.is_rule() {
                continue;
            }
            let open = self.without_definition(target);
            if let Some(more) = open.filter(|_| conditions.can_be_empty(target)) {
                let message = format!(
                    "{} may be empty: possibly none of its definitions gives a value{more}; {}",
                    self.words.target(number),
                    self.no_example()
                );
                all.push(Fault::at(self.words.place(number), message));
            }
        }
    }

    /// Whether a clause held where another scope calls this one.
    pub(crate) fn held_in_call(&self, found: &[Found], clause: u8) -> bool {
        let key = (self.words.scope, clause);
        found.iter().any(|found| found.held_below.contains(&key))
    }

    /// Clauses that never held; a general case that always has an exception is none, and
    /// an override that always falls back is warned of as a whole.
    fn never(&self, found: &[Found], all: &mut Vec<Fault>) {
        let conditions = self.conditions();
        for (number, &(tried, held)) in (0u8..).zip(&self.found.trials) {
            let clause = self.words.clause(number);
            let general = clause.parent == NONE && clause.condition == NONE;
            if general || self.always_falls_back(found, clause.target) {
                continue;
            }
            let called = self.held_in_call(found, number);
            let never = self.found.exact && tried > 0 && held == 0 && !called;
            let cases = match never {
                true => format!("in none of the {} cases", self.found.tried),
                false => "whatever is given".to_string(),
            };
            if never || !conditions.can_hold(number) {
                let what = self.words.called(number);
                let message = format!("this {what} never holds, {cases}");
                all.push(Fault::at(self.words.place(number), message));
            }
        }
    }

    /// Variables that nothing defines, reads or overrides.
    fn unused(&self, all: &mut Vec<Fault>) {
        let Words { book, scope } = self.words;
        for (word, variable) in book.names[scope].variables.iter().zip(0u8..) {
            if !is_used(book, scope, variable) {
                let name = &word.text;
                let message =
                    format!("the variable '{name}' is not used: nothing defines or reads it");
                all.push(Fault::at(word.place, message));
            }
        }
    }
}

/// `, for instance with a=yes`.
pub(crate) fn for_instance(example: &str) -> String {
    match example.is_empty() {
        true => ", with no inputs".to_string(),
        false => format!(", for instance with {example}"),
    }
}

/// Whether a scope defines or reads a variable, or another one overrides or reads it.
fn is_used(book: &Rulebook, scope: usize, variable: u8) -> bool {
    (0..book.scopes.len()).any(|user| {
        let calls = |k: u8| match k {
            NONE => user == scope,
            k => book.callee(user, k) == scope,
        };
        let own = &book.scopes[user];
        let defines = |c: &Clause| c.target.variable == variable && calls(c.target.subscope);
        let reads = |node: &Node| match *node {
            Node::Own(v) => v == variable && calls(NONE),
            Node::Subscope(k, v) => v == variable && calls(k),
            _ => false,
        };
        own.clauses.iter().any(defines) || own.nodes.iter().any(reads)
    })
}
