//! Tokens to scopes: statements. Expressions are in `expression`.

use crate::lexer::{tokens, Kind, Token};
use crate::place::{Checked, Fault, Place};
use crate::syntax::{
    Clause, Consequence, Exception, File, Record, Reference, Scope, Subscope, Variable, Word,
};
use second::decode::{MAX_SCOPES, MAX_SUBSCOPES, MAX_VARIABLES};
use second::value::Type;

pub const MAX_CLAUSES: usize = 128;

/// Parses a whole text.
pub fn parse(text: &str) -> Checked<File> {
    let mut parser = Parser::new(tokens(text)?);
    if parser.at_word("record") {
        Ok(File::Records(parser.records()?))
    } else {
        Ok(File::Scopes(parser.scopes()?))
    }
}

pub struct Parser {
    tokens: Vec<Token>,
    position: usize,
    /// The scope being read.
    pub(crate) scope: Scope,
    /// How many expressions are open around the place being read.
    pub(crate) depth: usize,
}

impl Parser {
    pub(crate) fn new(tokens: Vec<Token>) -> Parser {
        Parser {
            tokens,
            position: 0,
            scope: Scope::default(),
            depth: 0,
        }
    }

    /// The token to be read; the end is never passed.
    pub(crate) fn token(&self) -> &Token {
        &self.tokens[self.position]
    }

    pub(crate) fn place(&self) -> Place {
        self.token().place
    }

    pub(crate) fn advance(&mut self) {
        self.position = (self.position + 1).min(self.tokens.len() - 1);
    }

    pub(crate) fn at_word(&self, word: &str) -> bool {
        matches!(self.token().kind, Kind::Word(found) if found == word)
    }

    pub(crate) fn at_sign(&self, sign: &str) -> bool {
        matches!(self.token().kind, Kind::Sign(found) if found == sign)
    }

    /// Goes past the word if it stands here.
    pub(crate) fn take_word(&mut self, word: &str) -> bool {
        let here = self.at_word(word);
        if here {
            self.advance();
        }
        here
    }

    pub(crate) fn take_sign(&mut self, sign: &str) -> bool {
        let here = self.at_sign(sign);
        if here {
            self.advance();
        }
        here
    }

    pub(crate) fn expected<T>(&self, what: &str) -> Checked<T> {
        let found = self.token().described();
        Err(Fault::at(
            self.place(),
            format!("expected {what}, found {found}"),
        ))
    }

    pub(crate) fn need_word(&mut self, word: &str) -> Checked<()> {
        match self.take_word(word) {
            true => Ok(()),
            false => self.expected(&format!("'{word}'")),
        }
    }

    /// A sign or word that belongs to what was opened at a place.
    pub(crate) fn need_closing(&mut self, wanted: &str, opened: &str, at: Place) -> Checked<()> {
        match self.take_word(wanted) || self.take_sign(wanted) {
            true => Ok(()),
            false => self.expected(&format!("'{wanted}' for the '{opened}' at {at}")),
        }
    }

    pub(crate) fn need_sign(&mut self, sign: &str) -> Checked<()> {
        match self.take_sign(sign) {
            true => Ok(()),
            false => self.expected(&format!("'{sign}'")),
        }
    }

    pub(crate) fn name(&mut self, what: &str) -> Checked<Word> {
        let place = self.place();
        match self.token().kind.clone() {
            Kind::Name(text) => {
                self.advance();
                Ok(Word { text, place })
            }
            Kind::Word(word) => {
                let message = format!("'{word}' is a word of the language and cannot name {what}");
                Err(Fault::at(place, message))
            }
            _ => self.expected(&format!("the name of {what}")),
        }
    }

    pub(crate) fn take_type(&mut self) -> Option<Type> {
        if self.take_word("number") {
            return Some(Type::Number);
        }
        self.take_word("yes/no").then_some(Type::YesNo)
    }

    fn scopes(&mut self) -> Checked<Vec<Scope>> {
        let mut scopes = Vec::new();
        while self.token().kind != Kind::End {
            let place = self.place();
            if !self.take_word("scope") {
                return self.no_scope();
            }
            within(scopes.len(), MAX_SCOPES, place, "scopes in a book")?;
            scopes.push(self.scope()?);
        }
        Ok(scopes)
    }

    fn scope(&mut self) -> Checked<Scope> {
        self.scope = Scope {
            name: self.name("a scope")?,
            ..Scope::default()
        };
        while self.token().kind != Kind::End && !self.at_word("scope") {
            self.statement()?;
        }
        Ok(std::mem::take(&mut self.scope))
    }

    fn statement(&mut self) -> Checked<()> {
        match self.token().kind {
            Kind::Word("variable") => self.variable(),
            Kind::Word("sub-scope") => self.subscope(),
            Kind::Word("label" | "exception" | "define" | "rule") => self.clause(),
            Kind::Word("unused") => {
                self.advance();
                self.expression().map(|_| ())
            }
            _ => self.no_statement(),
        }
    }

    fn variable(&mut self) -> Checked<()> {
        let place = self.place();
        self.advance();
        let name = self.name("a variable")?;
        self.need_colon()?;
        let Some(of) = self.take_type() else {
            return self.no_type();
        };
        let have = self.scope.variables.len();
        within(have, MAX_VARIABLES, place, "variables in a scope")?;
        self.scope.variables.push(Variable { name, of });
        Ok(())
    }

    fn subscope(&mut self) -> Checked<()> {
        let place = self.place();
        self.advance();
        let name = self.name("a sub-scope")?;
        self.need_colon()?;
        let calls = self.name("the scope that is called")?;
        let have = self.scope.subscopes.len();
        within(have, MAX_SUBSCOPES, place, "sub-scopes in a scope")?;
        self.scope.subscopes.push(Subscope { name, calls });
        Ok(())
    }

    fn clause(&mut self) -> Checked<()> {
        let place = self.place();
        let label = match self.take_word("label") {
            true => Some(self.name("a clause")?),
            false => None,
        };
        let exception = self.exception()?;
        let rule = self.at_word("rule");
        if !rule && !self.at_word("define") {
            return self.expected("define or rule");
        }
        self.advance();
        let negative = rule && self.take_word("not");
        let target = self.reference()?;
        let condition = self.condition()?;
        let consequence = if rule {
            Consequence::Constant(!negative)
        } else {
            self.need_as()?;
            Consequence::Node(self.expression()?)
        };
        let have = self.scope.clauses.len();
        within(have, MAX_CLAUSES, place, "definitions and rules in a scope")?;
        self.scope.clauses.push(Clause {
            place,
            label,
            exception,
            target,
            condition,
            consequence,
        });
        Ok(())
    }

    fn exception(&mut self) -> Checked<Option<Exception>> {
        let place = self.place();
        if !self.take_word("exception") {
            return Ok(None);
        }
        match self.take_word("to") {
            true => Ok(Some(Exception::To(self.name("a clause")?))),
            false => Ok(Some(Exception::ToTheClauseBefore(place))),
        }
    }

    fn condition(&mut self) -> Checked<Option<usize>> {
        if !self.take_word("under") {
            return Ok(None);
        }
        self.need_word("condition")?;
        self.expression().map(Some)
    }

    /// `variable` or `sub-scope.variable`.
    pub(crate) fn reference(&mut self) -> Checked<Reference> {
        let first = self.name("a variable")?;
        if !self.take_sign(".") {
            return Ok(Reference {
                subscope: None,
                variable: first,
            });
        }
        Ok(Reference {
            subscope: Some(first),
            variable: self.name("a variable")?,
        })
    }

    fn records(&mut self) -> Checked<Vec<Record>> {
        let mut records = Vec::new();
        while self.token().kind != Kind::End {
            let place = self.place();
            self.need_word("record")?;
            let bytes = self.bytes()?;
            records.push(Record { place, bytes });
        }
        Ok(records)
    }

    /// Numbers up to the next word.
    fn bytes(&mut self) -> Checked<Vec<u8>> {
        let mut bytes = Vec::new();
        while let Kind::Number(n) = self.token().kind {
            let above = || Fault::at(self.place(), format!("{n} is no byte: 255 is the highest"));
            bytes.push(u8::try_from(n).map_err(|_| above())?);
            self.advance();
        }
        Ok(bytes)
    }
}

/// One more than `have` must stay within `most`.
pub(crate) fn within(have: usize, most: usize, place: Place, what: &str) -> Checked<()> {
    if have < most {
        return Ok(());
    }
    Err(Fault::at(place, format!("more than {most} {what}")))
}
