//! The fixed translation of a book into code.

use crate::book::Book;
use crate::kind::{self, NONE};
use crate::overriding::Overriding;
use crate::refusal::Refusal;
use crate::scope::{Node, Scope, Target};
use crate::steps::Step;
use crate::trees::{node_term, Part, Term, Trees};

/// Writes the code of a book: its length, or refusals 1 to 12 and 15.
pub fn compile(book: &[u8], code: &mut [u8]) -> Result<usize, u8> {
    let bytes = code_of(book)?;
    let room = code.get_mut(..bytes.len()).ok_or(Refusal::BufferTooSmall)?;
    room.copy_from_slice(&bytes);
    Ok(bytes.len())
}

/// The code of a book, or refusals 1 to 12.
pub fn code_of(book: &[u8]) -> Result<Vec<u8>, u8> {
    code_by(Overriding::FallsBack, book)
}

/// The translation for a meaning of empty overrides.
pub fn code_by(overriding: Overriding, book: &[u8]) -> Result<Vec<u8>, u8> {
    let book = Book::accept(book)?;
    let mut code = Vec::new();
    for &number in &book.order {
        let scope = &book.scopes[number];
        let trees = Trees::of(scope);
        let mut block = Block {
            overriding,
            book: &book,
            scope,
            trees: &trees,
            code: &mut code,
        };
        block.write(number);
    }
    Ok(code)
}

/// Writes the block of one scope.
struct Block<'a> {
    overriding: Overriding,
    book: &'a Book,
    scope: &'a Scope,
    trees: &'a Trees,
    code: &'a mut Vec<u8>,
}

impl Block<'_> {
    /// "Kind 1 with the scope number, its kinds 2 and 3, instructions".
    fn write(&mut self, number: usize) {
        self.code.extend([kind::SCOPE, number as u8]);
        for &of in &self.scope.variables {
            self.code.extend([kind::VARIABLE, of as u8]);
        }
        for &subscope in &self.scope.subscopes {
            self.code.extend([kind::SUBSCOPE, subscope]);
        }
        for step in &self.book.steps[number] {
            match *step {
                Step::Variable(v) => self.variable(v),
                Step::Call(k) => self.call(k),
            }
        }
    }

    /// "A variable: 44 past its store, tree, 41."
    fn variable(&mut self, variable: usize) {
        self.code.extend([kind::JUMP_IF_GIVEN, variable as u8]);
        let past = self.distance();
        self.part(self.trees.own_tree(self.scope, variable));
        self.code.extend([kind::STORE, variable as u8]);
        self.land(past);
    }

    /// "A call: each tree with 42, then 43."
    fn call(&mut self, subscope: usize) {
        let callee = usize::from(self.scope.subscopes[subscope]);
        for variable in 0..self.book.scopes[callee].variables.len() {
            let target = Target {
                subscope: subscope as u8,
                variable: variable as u8,
            };
            if let Some(tree) = self.trees.tree(self.scope, target) {
                self.override_tree(tree, target);
            }
        }
        self.code.extend([kind::ENTER, subscope as u8]);
    }

    /// "Each override tree has 36 before it and 37, then 42, after it; the try lands past
    /// the 42."
    fn override_tree(&mut self, tree: Part, target: Target) {
        let falls_back = self.overriding == Overriding::FallsBack;
        let past = falls_back.then(|| self.branch(kind::TRY));
        self.part(tree);
        if falls_back {
            self.code.push(kind::END_TRY);
        }
        let Target { subscope, variable } = target;
        self.code.extend([kind::OVERRIDE, subscope, variable]);
        if let Some(past) = past {
            self.land(past);
        }
    }

    fn part(&mut self, part: Part) {
        match part {
            Part::Empty => self.code.push(kind::RAISE_EMPTY),
            Part::Constant(yes) => self.code.extend([kind::CONSTANT, u8::from(yes)]),
            Part::Node(node) => self.node(&self.scope.nodes[usize::from(node)]),
            Part::Clause(number) => {
                let clause = &self.scope.clauses[usize::from(number)];
                self.term(self.trees.clause_term(number, clause));
            }
            Part::Bases { first, rules } => self.term(self.trees.bases_term(first, rules)),
        }
    }

    /// "Then justification, 35 to the raise, consequence, 34 past, 32."
    fn term(&mut self, term: Term) {
        let settled = self.exceptions(term.exceptions);
        self.part(term.justification);
        let raise = self.branch(kind::JUMP_IF_NO);
        self.part(term.consequence);
        let past = self.branch(kind::JUMP);
        self.land(raise);
        self.code.push(kind::RAISE_EMPTY);
        self.land(past);
        if let Some(settled) = settled {
            self.land(settled);
        }
    }

    /// "38; for each 36, its code, 37, 34 over one byte, 38 (where the try lands), 39;
    /// then 40 past the term." Without exceptions there is nothing to settle.
    fn exceptions(&mut self, exceptions: impl Iterator<Item = Part>) -> Option<usize> {
        let mut any = false;
        for exception in exceptions {
            if !any {
                self.code.push(kind::PUSH_NOTHING);
            }
            any = true;
            let caught = self.branch(kind::TRY);
            self.part(exception);
            self.code.push(kind::END_TRY);
            let over = self.branch(kind::JUMP);
            self.land(caught);
            self.code.push(kind::PUSH_NOTHING);
            self.land(over);
            self.code.push(kind::JOIN);
        }
        any.then(|| self.branch(kind::SETTLE))
    }

    /// "A node's operands come first, then its kind; 8 and 9 become 32 and 33."
    fn node(&mut self, node: &Node) {
        match node {
            &Node::Constant(yes) => self.code.extend([kind::CONSTANT, u8::from(yes)]),
            Node::Number(n) => {
                self.code.push(kind::NUMBER);
                self.code.extend(n.to_be_bytes());
            }
            &Node::Own(v) => self.code.extend([kind::OWN_VARIABLE, v]),
            &Node::Subscope(k, v) => self.code.extend([kind::SUBSCOPE_VARIABLE, k, v]),
            Node::Empty(_) => self.code.push(kind::RAISE_EMPTY),
            Node::Conflict(_) => self.code.push(kind::RAISE_CONFLICT),
            &Node::Unary(kind, _) | &Node::Binary(kind, _, _) => {
                for operand in node.operands() {
                    self.part(Part::Node(operand));
                }
                self.code.push(kind);
            }
            &Node::If(condition, then, other) => self.conditional(condition, then, other),
            Node::Default(exceptions, j, c) => self.term(node_term(exceptions, *j, *c)),
        }
    }

    /// "If: condition, 35, then, 34, else."
    fn conditional(&mut self, condition: u8, then: u8, other: u8) {
        self.part(Part::Node(condition));
        let no = self.branch(kind::JUMP_IF_NO);
        self.part(Part::Node(then));
        let past = self.branch(kind::JUMP);
        self.land(no);
        self.part(Part::Node(other));
        self.land(past);
    }

    /// Writes a kind and room for its distance; hands back where the distance stands.
    fn branch(&mut self, kind: u8) -> usize {
        self.code.push(kind);
        self.distance()
    }

    fn distance(&mut self) -> usize {
        self.code.extend([NONE, NONE]);
        self.code.len() - 2
    }

    /// Fills in a distance, "forward from the instruction's end" to the present end.
    fn land(&mut self, place: usize) {
        let distance = (self.code.len() - place - 2) as u16;
        self.code[place..place + 2].copy_from_slice(&distance.to_be_bytes());
    }
}
