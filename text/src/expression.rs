//! Tokens to nodes. Tightest first: `-` before an operand, `+` and `-`, at most one
//! comparison, `not`, `and`, `or`; an `if` is open to the right.

use crate::lexer::Kind;
use crate::operations::{of_sign, Operation, COMPARISON, NEGATION, NOT, OR};
use crate::parser::{within, Parser};
use crate::place::{Checked, Fault, Place};
use crate::syntax::{Form, Node};
use second::kind;

pub const MAX_NODES: usize = 250;

/// More than any text of 250 nodes needs.
const MAX_DEPTH: usize = 700;

impl Parser {
    /// Reads an expression; hands back its node.
    pub(crate) fn expression(&mut self) -> Checked<usize> {
        self.deeper(|parser| match parser.at_word("if") {
            true => parser.conditional(),
            false => parser.operation(OR),
        })
    }

    fn deeper(&mut self, read: impl FnOnce(&mut Parser) -> Checked<usize>) -> Checked<usize> {
        if self.depth == MAX_DEPTH {
            return Err(Fault::at(self.place(), "nested too deeply"));
        }
        self.depth += 1;
        let node = read(self)?;
        self.depth -= 1;
        Ok(node)
    }

    fn add(&mut self, place: Place, form: Form) -> Checked<usize> {
        self.add_signed(place, form, None)
    }

    /// Adds a node for which, with others, a sign stands.
    pub(crate) fn add_signed(
        &mut self,
        place: Place,
        form: Form,
        sign: Option<&'static str>,
    ) -> Checked<usize> {
        let have = self.scope.nodes.len();
        within(have, MAX_NODES, place, "nodes in a scope")?;
        self.scope.nodes.push(Node {
            place,
            form,
            fixed: None,
            sign,
        });
        Ok(have)
    }

    fn conditional(&mut self) -> Checked<usize> {
        let place = self.place();
        self.need_word("if")?;
        let condition = self.expression()?;
        self.need_closing("then", "if", place)?;
        let then = self.expression()?;
        self.need_closing("else", "if", place)?;
        let other = self.expression()?;
        self.add(place, Form::If(condition, then, other))
    }

    /// Operations of a level or tighter, from the left.
    pub(crate) fn operation(&mut self, level: u8) -> Checked<usize> {
        let start = self.scope.nodes.len();
        let mut left = self.operand(level)?;
        let mut compared = false;
        while let Some(operation) = self.sign().filter(|o| o.level >= level) {
            if operation.level == COMPARISON && compared {
                let message = "only one comparison may stand here; say 'a < b and b < c', \
                               or use parentheses";
                return Err(Fault::at(self.place(), message));
            }
            compared = operation.level == COMPARISON;
            self.advance();
            left = self.operate(operation, start, left)?;
        }
        Ok(left)
    }

    /// The operation whose sign stands here.
    fn sign(&self) -> Option<&'static Operation> {
        match self.token().kind {
            Kind::Sign(sign) | Kind::Word(sign) => of_sign(sign),
            _ => None,
        }
    }

    /// An operand of an operation of a level: `not` only where it binds more tightly.
    fn operand(&mut self, level: u8) -> Checked<usize> {
        let place = self.place();
        if level <= NOT && self.take_word("not") {
            let node = self.deeper(|parser| parser.operation(NOT))?;
            return self.add(place, Form::Unary(kind::NOT, node));
        }
        if self.take_sign("-") {
            return self.negated(place);
        }
        self.atom()
    }

    /// After `-`: a number makes a negative constant, all else is negated.
    fn negated(&mut self, place: Place) -> Checked<usize> {
        if let Kind::Number(n) = self.token().kind {
            let above = || Fault::at(place, "a number below -2147483648");
            let n = i64::try_from(n).map_err(|_| above())?;
            let n = i32::try_from(-n).map_err(|_| above())?;
            self.advance();
            return self.add(place, Form::Number(n));
        }
        let node = self.deeper(|parser| parser.operand(NEGATION))?;
        self.add(place, Form::Unary(kind::NEGATE, node))
    }

    fn atom(&mut self) -> Checked<usize> {
        let place = self.place();
        match self.token().kind {
            Kind::Number(n) => {
                let above = |_| Fault::at(place, "a number above 2147483647");
                let n = i32::try_from(n).map_err(above)?;
                self.advance();
                self.add(place, Form::Number(n))
            }
            Kind::Name(_) => {
                let reference = self.reference()?;
                self.add(place, Form::Read(reference))
            }
            Kind::Sign("(") => self.parenthesis(),
            Kind::Sign("@") => self.fixed(),
            Kind::Word(word) => self.word(word),
            _ => self.expected("a number, a name or '('"),
        }
    }

    fn word(&mut self, word: &'static str) -> Checked<usize> {
        let place = self.place();
        match word {
            "yes" | "no" => {
                self.advance();
                self.add(place, Form::Constant(word == "yes"))
            }
            "empty" | "conflict" => {
                self.advance();
                let of = self.take_type();
                let record = match word {
                    "empty" => kind::EMPTY,
                    _ => kind::CONFLICT,
                };
                self.add(place, Form::Raise(record, of))
            }
            "default" => self.default_term(),
            "not" | "if" => {
                let message = format!("put '{word}' and what belongs to it in parentheses here");
                Err(Fault::at(place, message))
            }
            "yes/no" => Err(Fault::at(place, "yes/no is a type; say yes or no")),
            _ => self.expected("a number, a name or '('"),
        }
    }

    fn parenthesis(&mut self) -> Checked<usize> {
        let place = self.place();
        self.need_sign("(")?;
        let node = self.expression()?;
        self.need_closing(")", "(", place)?;
        Ok(node)
    }

    /// `@7 (a + b)`: the node of what follows gets number 7.
    fn fixed(&mut self) -> Checked<usize> {
        let place = self.place();
        self.need_sign("@")?;
        let Kind::Number(n) = self.token().kind else {
            return self.expected("the number of a node");
        };
        let above = |_| Fault::at(place, format!("{n} is no number of a node"));
        let number = u8::try_from(n).map_err(above)?;
        self.advance();
        let node = self.deeper(Parser::atom)?;
        if self.scope.nodes[node].fixed.is_some() {
            return Err(Fault::at(place, "a node has one number only"));
        }
        self.scope.nodes[node].fixed = Some((number, place));
        Ok(node)
    }

    /// `default [exceptions | justification : consequence]`.
    fn default_term(&mut self) -> Checked<usize> {
        let place = self.place();
        self.need_word("default")?;
        let opened = self.place();
        self.need_sign("[")?;
        let exceptions = self.exceptions()?;
        self.need_closing("|", "[", opened)?;
        let justification = self.expression()?;
        self.need_closing(":", "[", opened)?;
        let consequence = self.expression()?;
        self.need_closing("]", "[", opened)?;
        let form = Form::Default(exceptions, justification, consequence);
        self.add(place, form)
    }

    /// Up to three, separated by commas; `none` leaves a place free.
    fn exceptions(&mut self) -> Checked<[Option<usize>; 3]> {
        let mut exceptions = [None; 3];
        if self.at_sign("|") {
            return Ok(exceptions);
        }
        for place in 0..3 {
            if !self.take_word("none") {
                exceptions[place] = Some(self.expression()?);
            }
            if !self.take_sign(",") {
                return Ok(exceptions);
            }
        }
        let message = "a default has at most three exceptions";
        Err(Fault::at(self.place(), message))
    }
}
