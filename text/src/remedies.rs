//! Faults in the writing that newcomers make, with what to write instead.

use crate::lexer::Kind;
use crate::nearest::{did_you_mean, type_word};
use crate::parser::Parser;
use crate::place::{Checked, Fault};

/// The words that a statement or a scope begins with.
const STATEMENTS: [&str; 8] = [
    "variable",
    "sub-scope",
    "label",
    "exception",
    "define",
    "rule",
    "unused",
    "scope",
];

impl Parser {
    /// What stands where a statement should begin.
    pub(crate) fn no_statement(&self) -> Checked<()> {
        let message = match &self.token().kind {
            Kind::Word("under") => {
                "the condition stands before the value: define .. under condition .. as .."
                    .to_string()
            }
            Kind::Word("if") => {
                "a clause begins with define or rule: define .. under condition .. as .."
                    .to_string()
            }
            Kind::Word("as") => "a value belongs to a definition: define .. as ..".to_string(),
            Kind::Sign(sign @ (")" | "]")) => format!("this '{sign}' closes nothing"),
            kind => {
                let hint = match kind {
                    Kind::Name(name) => did_you_mean(name, STATEMENTS),
                    _ => String::new(),
                };
                let found = self.token().described();
                format!("expected {}, found {found}{hint}", either(&STATEMENTS))
            }
        };
        Err(Fault::at(self.place(), message))
    }

    /// What stands where the first scope should begin.
    pub(crate) fn no_scope<T>(&self) -> Checked<T> {
        match &self.token().kind {
            Kind::Word("variable" | "define" | "rule" | "label" | "sub-scope") => {
                self.expected("'scope' and its name before this")
            }
            Kind::Name(name) => {
                let found = self.token().described();
                let hint = did_you_mean(name, ["scope"]);
                let message = format!("expected 'scope', found {found}{hint}");
                Err(Fault::at(self.place(), message))
            }
            _ => self.expected("'scope'"),
        }
    }

    /// The colon behind a name that is declared.
    pub(crate) fn need_colon(&mut self) -> Checked<()> {
        if self.at_sign("-") {
            let message = "a name has letters, digits and '_', and no '-'";
            return Err(Fault::at(self.place(), message));
        }
        self.need_sign(":")
    }

    /// What stands where a type should stand.
    pub(crate) fn no_type<T>(&self) -> Checked<T> {
        let word = match &self.token().kind {
            Kind::Name(name) => type_word(name),
            Kind::Word(word) => type_word(word),
            _ => None,
        };
        match word {
            Some(word) => {
                let found = self.token().described();
                let message = format!("expected yes/no or number, found {found}; write '{word}'");
                Err(Fault::at(self.place(), message))
            }
            None => self.expected("yes/no or number"),
        }
    }

    /// The word before a value.
    pub(crate) fn need_as(&mut self) -> Checked<()> {
        if self.at_sign("=") {
            let message = "expected 'as' before the value, found '=', which compares";
            return Err(Fault::at(self.place(), message));
        }
        self.need_word("as")
    }
}

/// `a, b or c`.
fn either(words: &[&str]) -> String {
    match words {
        [first @ .., last] => format!("{} or {last}", first.join(", ")),
        [] => String::new(),
    }
}
