//! Characters to tokens. A comment goes from `#` to the end of its line.

use crate::place::{Checked, Fault, Place};

/// The words of the language; none of them can be a name.
pub const WORDS: [&str; 27] = [
    "scope",
    "variable",
    "sub-scope",
    "define",
    "rule",
    "label",
    "exception",
    "to",
    "under",
    "condition",
    "as",
    "if",
    "then",
    "else",
    "and",
    "or",
    "not",
    "yes",
    "no",
    "empty",
    "conflict",
    "default",
    "none",
    "number",
    "yes/no",
    "unused",
    "record",
];

/// The signs of the language; of two that fit, the longer one stands first.
pub const SIGNS: [&str; 17] = [
    "<=", ">=", "<>", "<", ">", "=", "+", "-", "(", ")", "[", "]", ",", "|", ":", ".", "@",
];

#[derive(Clone, Debug, PartialEq, Eq)]
pub enum Kind {
    Name(String),
    Word(&'static str),
    /// Digits; a number too large for any use is the largest.
    Number(u64),
    Sign(&'static str),
    End,
}

#[derive(Clone, Debug, PartialEq, Eq)]
pub struct Token {
    pub kind: Kind,
    pub place: Place,
}

impl Token {
    /// The token in a message.
    pub fn described(&self) -> String {
        match &self.kind {
            Kind::Name(name) => format!("the name '{name}'"),
            Kind::Word(word) => format!("'{word}'"),
            Kind::Number(n) => format!("the number {n}"),
            Kind::Sign(sign) => format!("'{sign}'"),
            Kind::End => "the end of the file".to_string(),
        }
    }
}

/// All tokens of a text, the last one its end.
pub fn tokens(text: &str) -> Checked<Vec<Token>> {
    let mut lexer = Lexer::new(text);
    let mut found = Vec::new();
    loop {
        let token = lexer.token()?;
        let last = token.kind == Kind::End;
        found.push(token);
        if last {
            return Ok(found);
        }
    }
}

struct Lexer<'a> {
    rest: &'a str,
    place: Place,
}

impl<'a> Lexer<'a> {
    fn new(text: &'a str) -> Self {
        Lexer {
            rest: text.strip_prefix('\u{feff}').unwrap_or(text),
            place: Place { line: 1, column: 1 },
        }
    }

    fn token(&mut self) -> Checked<Token> {
        self.skip_blanks();
        let place = self.place;
        let kind = match self.rest.chars().next() {
            None => Kind::End,
            Some(c) if c.is_alphabetic() => self.word(),
            Some(c) if c.is_ascii_digit() => self.number()?,
            Some(c) => {
                let sign = self.sign();
                sign.ok_or_else(|| Fault::at(place, unknown(c, self.rest)))?
            }
        };
        Ok(Token { kind, place })
    }

    /// A sign, unless one of other languages begins with it.
    fn sign(&mut self) -> Option<Kind> {
        if foreign(self.rest).is_some() {
            return None;
        }
        let sign = SIGNS.iter().find(|&&sign| self.rest.starts_with(sign))?;
        sign.chars().for_each(|_| self.advance());
        Some(Kind::Sign(sign))
    }

    /// Goes past spaces, line ends and comments.
    fn skip_blanks(&mut self) {
        while let Some(c) = self.rest.chars().next() {
            if c == '#' {
                self.take_while(|c| c != '\n');
            } else if c.is_whitespace() {
                self.advance();
            } else {
                return;
            }
        }
    }

    fn advance(&mut self) {
        let mut chars = self.rest.chars();
        if chars.next() == Some('\n') {
            self.place.line += 1;
            self.place.column = 1;
        } else {
            self.place.column += 1;
        }
        self.rest = chars.as_str();
    }

    fn take_while(&mut self, wanted: impl Fn(char) -> bool) -> &'a str {
        let start = self.rest;
        while self.rest.chars().next().is_some_and(&wanted) {
            self.advance();
        }
        &start[..start.len() - self.rest.len()]
    }

    /// A name or a word of the language; two words have a sign in them.
    fn word(&mut self) -> Kind {
        let name = self.take_while(is_inner);
        for (first, tail, word) in [("sub", "-scope", "sub-scope"), ("yes", "/no", "yes/no")] {
            if name == first && self.follows(tail) {
                tail.chars().for_each(|_| self.advance());
                return Kind::Word(word);
            }
        }
        match WORDS.iter().find(|&&word| word == name) {
            Some(word) => Kind::Word(word),
            None => Kind::Name(name.to_string()),
        }
    }

    /// Whether the text goes on with these characters and then no letter or digit.
    fn follows(&self, tail: &str) -> bool {
        let after = self.rest.strip_prefix(tail);
        after.is_some_and(|after| !after.chars().next().is_some_and(is_inner))
    }

    /// Digits, with `_` between them where that helps the eye.
    fn number(&mut self) -> Checked<Kind> {
        let digits = self.take_while(|c| c.is_ascii_digit() || c == '_');
        let next = self.rest.chars().next();
        if next.is_some_and(is_inner) {
            return Err(Fault::at(self.place, "a name begins with a letter"));
        }
        let after = self.rest.strip_prefix('.').and_then(|r| r.chars().next());
        if after.is_some_and(|c| c.is_ascii_digit()) {
            let message = "numbers are whole; count in a smaller unit";
            return Err(Fault::at(self.place, message));
        }
        let digits: String = digits.chars().filter(|&c| c != '_').collect();
        Ok(Kind::Number(digits.parse().unwrap_or(u64::MAX)))
    }
}

fn is_inner(c: char) -> bool {
    c.is_alphanumeric() || c == '_'
}

/// Signs of other languages or of print, and what they are here.
const FOREIGN: [(&str, &str); 12] = [
    ("==", "="),
    ("=>", ">="),
    ("=<", "<="),
    ("!=", "<>"),
    ("!", "not"),
    ("&", "and"),
    ("||", "or"),
    ("≥", ">="),
    ("≤", "<="),
    ("≠", "<>"),
    ("−", "-"),
    ("–", "-"),
];

/// The foreign sign that a text begins with, and what it is here.
fn foreign(text: &str) -> Option<(&'static str, &'static str)> {
    let begins = |&&(sign, _): &&(&str, &str)| text.starts_with(sign);
    FOREIGN.iter().find(begins).copied()
}

/// What is wrong with a text that begins with a character of no sign.
fn unknown(c: char, text: &str) -> String {
    if let Some((sign, here)) = foreign(text) {
        return format!("there is no '{sign}'; write '{here}'");
    }
    match c {
        '*' | '/' => format!("there is no '{c}'; numbers are added and subtracted only"),
        _ => format!("the character '{}' has no meaning here", c.escape_debug()),
    }
}

#[cfg(test)]
mod tests {
    use super::*;

    fn kinds(text: &str) -> Vec<Kind> {
        let found = tokens(text).expect("a text without faults");
        found.into_iter().map(|token| token.kind).collect()
    }

    fn fault(text: &str) -> String {
        let fault = tokens(text).expect_err("a fault");
        fault.in_file("f")
    }

    #[test]
    fn words_with_signs_in_them() {
        assert_eq!(kinds("sub-scope"), [Kind::Word("sub-scope"), Kind::End]);
        assert_eq!(kinds("yes/no"), [Kind::Word("yes/no"), Kind::End]);
        let apart = [
            Kind::Name("sub".to_string()),
            Kind::Sign("-"),
            Kind::Name("scopes".to_string()),
            Kind::End,
        ];
        assert_eq!(kinds("sub-scopes"), apart);
    }

    #[test]
    fn places_count_lines_and_characters() {
        let found = tokens("# é\n  é_1 <\t7").expect("tokens");
        let places: Vec<_> = found.iter().map(|t| t.place.to_string()).collect();
        assert_eq!(places, ["2:3", "2:7", "2:9", "2:10"]);
    }

    #[test]
    fn numbers() {
        assert_eq!(kinds("4_559_808"), [Kind::Number(4_559_808), Kind::End]);
        let huge = kinds("99999999999999999999999");
        assert_eq!(huge, [Kind::Number(u64::MAX), Kind::End]);
        assert_eq!(
            fault("455.98"),
            "f:1:4: numbers are whole; count in a smaller unit"
        );
        assert_eq!(fault("24fps"), "f:1:3: a name begins with a letter");
    }

    #[test]
    fn unknown_characters() {
        assert!(fault("a\n ≥").starts_with("f:2:2: there is no '≥'; write '>='"));
        assert_eq!(fault("a != b"), "f:1:3: there is no '!='; write '<>'");
        assert_eq!(fault("a == b"), "f:1:3: there is no '=='; write '='");
        assert!(fault("?").starts_with("f:1:1: the character '?'"));
    }
}
