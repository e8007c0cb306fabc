//! Book to text. A book has no names, so they are made: scope0, v0, s0, and c0 for a
//! clause that needs a label. What is printed depends on the book alone.

use crate::numbering::to_fix;
use crate::operations::{of_kind, of_sign, Operation, COMPARISON, NEGATION, NOT, SUM};
use crate::place::{Fault, Place};
use crate::records::print_records;
use crate::rulebook::{type_name, ClauseName, Names, NodeName, Rulebook};
use crate::syntax::Word;
use crate::words::{refusal, wrapped};
use second::decode::decode;
use second::kind::{self, NONE};
use second::scope::{Clause, Consequence, Node, Scope};
use second::value::Type;

/// The text of a book: in the language where the judge accepts it, as plain records
/// where only its records are sound.
pub fn to_text(bytes: &[u8]) -> Result<String, Fault> {
    let scopes = decode(bytes).map_err(|number| Fault::somewhere(refusal(number.into())))?;
    Ok(match second::judge(bytes) {
        Ok(_) => in_language(scopes),
        Err(number) => print_records(bytes, number),
    })
}

/// The scopes in the language. References must resolve and nodes be named once;
/// faults 8 to 12 can be printed.
pub fn in_language(scopes: Vec<Scope>) -> String {
    let names = scopes.iter().enumerate().map(made_names).collect();
    let book = Rulebook { scopes, names };
    let printed: Vec<String> = (0..book.scopes.len())
        .map(|s| scope_text(&book, s))
        .collect();
    printed.join("\n")
}

fn made_names((number, scope): (usize, &Scope)) -> Names {
    let word = |prefix: &str, number: usize| Word {
        text: format!("{prefix}{number}"),
        place: Place::default(),
    };
    let all = |prefix: &str, count: usize| (0..count).map(|i| word(prefix, i)).collect();
    let clauses = (0..scope.clauses.len()).map(|number| ClauseName {
        place: Place::default(),
        label: needs_label(scope, number).then(|| format!("c{number}")),
    });
    Names {
        scope: word("scope", number),
        variables: all("v", scope.variables.len()),
        subscopes: all("s", scope.subscopes.len()),
        nodes: vec![NodeName::default(); scope.nodes.len()],
        clauses: clauses.collect(),
    }
}

/// Whether an exception to the clause stands elsewhere than right behind it.
fn needs_label(scope: &Scope, number: usize) -> bool {
    let names_it = |clause: &Clause| usize::from(clause.parent) == number;
    scope.clauses.iter().skip(number + 2).any(names_it)
}

fn scope_text(book: &Rulebook, number: usize) -> String {
    let (scope, names) = (&book.scopes[number], &book.names[number]);
    let mut text = format!("scope {}\n", names.scope.text);
    for (word, &of) in names.variables.iter().zip(&scope.variables) {
        text += &format!("  variable {} : {}\n", word.text, type_name(of));
    }
    for (word, &called) in names.subscopes.iter().zip(&scope.subscopes) {
        let called = &book.names[usize::from(called)].scope.text;
        text += &format!("  sub-scope {} : {called}\n", word.text);
    }
    let statements = statements(scope);
    let printer = Expressions {
        book,
        scope: number,
        fixed: fixed(scope, &statements),
        signs: false,
    };
    for statement in statements {
        text += &match statement {
            Statement::Clause(clause) => printer.clause(clause),
            Statement::Unused(node) => {
                let unused = format!("unused {}", printer.node(node, 0));
                format!("\n{}", lines(&unused))
            }
        };
    }
    text
}

#[derive(Clone, Copy)]
enum Statement {
    Clause(usize),
    Unused(u8),
}

/// Clauses in order; a node that nothing names stands before the first clause that
/// names a later node.
fn statements(scope: &Scope) -> Vec<Statement> {
    let mut named = [false; 256];
    let nodes = scope.nodes.iter().flat_map(Node::operands);
    let all = nodes.chain(scope.clauses.iter().flat_map(Clause::operands));
    all.for_each(|node| named[usize::from(node)] = true);
    let count = scope.nodes.len() as u8;
    let mut unused = (0..count)
        .filter(|&node| !named[usize::from(node)])
        .peekable();
    let mut statements = Vec::new();
    for (number, clause) in scope.clauses.iter().enumerate() {
        let last = clause.operands().max().unwrap_or(0);
        while let Some(node) = unused.next_if(|&node| node < last) {
            statements.push(Statement::Unused(node));
        }
        statements.push(Statement::Clause(number));
    }
    statements.extend(unused.map(Statement::Unused));
    statements
}

/// The nodes whose number the text must fix.
fn fixed(scope: &Scope, statements: &[Statement]) -> Vec<bool> {
    let mut written = Vec::new();
    for statement in statements {
        match *statement {
            Statement::Unused(node) => add_written(scope, node, &mut written),
            Statement::Clause(number) => {
                let operands = scope.clauses[number].operands();
                operands.for_each(|node| add_written(scope, node, &mut written));
            }
        }
    }
    let mut fixed = vec![false; scope.nodes.len()];
    for (&node, fix) in written.iter().zip(to_fix(&written)) {
        fixed[usize::from(node)] = fix;
    }
    fixed
}

/// The nodes of a tree in the order in which the text has them.
fn add_written(scope: &Scope, node: u8, written: &mut Vec<u8>) {
    let operands = scope.nodes[usize::from(node)].operands();
    operands.for_each(|operand| add_written(scope, operand, written));
    written.push(node);
}

/// Prints the expressions of a scope; `fixed` says which nodes show their number.
pub struct Expressions<'a> {
    book: &'a Rulebook,
    scope: usize,
    fixed: Vec<bool>,
    /// Whether a sign that stands for several nodes is shown as it was written.
    signs: bool,
}

impl<'a> Expressions<'a> {
    /// Expressions for a reader, without numbers of nodes.
    pub fn plain(book: &'a Rulebook, scope: usize) -> Self {
        Expressions {
            book,
            scope,
            fixed: vec![false; book.scopes[scope].nodes.len()],
            signs: true,
        }
    }

    /// Expressions as the nodes are, so that equal ones are written alike.
    pub fn of_nodes(book: &'a Rulebook, scope: usize) -> Self {
        Expressions {
            signs: false,
            ..Expressions::plain(book, scope)
        }
    }

    fn clause(&self, number: usize) -> String {
        let scope = &self.book.scopes[self.scope];
        let clauses = &self.book.names[self.scope].clauses;
        let clause = &scope.clauses[number];
        let mut text = "\n".to_string();
        if let Some(label) = &clauses[number].label {
            text += &format!("  label {label}\n");
        }
        if clause.parent != NONE {
            let parent = usize::from(clause.parent);
            text += &match &clauses[parent].label {
                Some(label) if parent + 1 != number => format!("  exception to {label}\n"),
                _ => "  exception\n".to_string(),
            };
        }
        text + &lines(&self.clause_line(clause))
    }

    /// The clause without label and `exception`.
    fn clause_line(&self, clause: &Clause) -> String {
        let target = self.book.target_name(self.scope, clause.target);
        let condition = match clause.condition {
            NONE => String::new(),
            node => format!(" under condition {}", self.node(node, 0)),
        };
        match clause.consequence {
            Consequence::Node(node) => {
                format!("define {target}{condition} as {}", self.node(node, 0))
            }
            Consequence::Constant(true) => format!("rule {target}{condition}"),
            Consequence::Constant(false) => format!("rule not {target}{condition}"),
        }
    }

    /// An expression, in parentheses where it binds less tightly than `level`.
    pub fn node(&self, number: u8, level: u8) -> String {
        let (text, own) = self.form(number);
        if self.fixed[usize::from(number)] {
            return match own {
                ATOM => format!("@{number} {text}"),
                _ => format!("@{number} ({text})"),
            };
        }
        match own < level {
            true => format!("({text})"),
            false => text,
        }
    }

    fn at(&self, number: u8) -> Node {
        self.book.scopes[self.scope].nodes[usize::from(number)]
    }

    /// The expression and how tightly it binds.
    fn form(&self, number: u8) -> (String, u8) {
        let sign = self.book.names[self.scope].nodes[usize::from(number)].sign;
        if let Some(operation) = sign.filter(|_| self.signs).and_then(of_sign) {
            return self.signed(operation, number);
        }
        match self.at(number) {
            Node::Constant(yes) => (if yes { "yes" } else { "no" }.to_string(), ATOM),
            Node::Number(n) => (n.to_string(), if n < 0 { NEGATION } else { ATOM }),
            Node::Own(v) => (self.book.variable_name(self.scope, NONE, v), ATOM),
            Node::Subscope(k, v) => (self.book.variable_name(self.scope, k, v), ATOM),
            Node::Empty(of) => (raise("empty", of), ATOM),
            Node::Conflict(of) => (raise("conflict", of), ATOM),
            Node::Unary(kind::NOT, a) => (format!("not {}", self.node(a, NOT)), NOT),
            Node::Unary(_, a) => (self.negation(a), NEGATION),
            Node::Binary(kind, a, b) => self.operation(kind, a, b),
            Node::If(condition, then, other) => {
                let [condition, then, other] = [condition, then, other].map(|n| self.node(n, 0));
                (format!("if {condition} then {then} else {other}"), 0)
            }
            Node::Default(exceptions, j, c) => (self.default_term(exceptions, j, c), ATOM),
        }
    }

    /// `-5` is a constant, so that a negated 5 is `-(5)`.
    fn negation(&self, operand: u8) -> String {
        let fixed = self.fixed[usize::from(operand)];
        let nodes = &self.book.scopes[self.scope].nodes;
        match nodes[usize::from(operand)] {
            Node::Number(n) if n >= 0 && !fixed => format!("-({n})"),
            _ => format!("-{}", self.node(operand, NEGATION)),
        }
    }

    fn operation(&self, kind: u8, a: u8, b: u8) -> (String, u8) {
        match of_kind(kind) {
            Some(operation) => (self.sides(operation, a, b), operation.level),
            None => (String::new(), ATOM),
        }
    }

    /// Operations stand from the left; a comparison has none beside it.
    fn sides(&self, operation: &Operation, a: u8, b: u8) -> String {
        let left = match operation.level {
            COMPARISON => SUM,
            level => level,
        };
        let (a, b) = (self.node(a, left), self.node(b, operation.level + 1));
        format!("{a} {} {b}", operation.sign)
    }

    /// Nodes for which one sign was written.
    fn signed(&self, operation: &Operation, number: u8) -> (String, u8) {
        let operand = |number: u8| self.at(number).operands().next().unwrap_or(number);
        let inner = match operation.negated {
            true => operand(number),
            false => number,
        };
        let mut sides: Vec<u8> = self.at(inner).operands().collect();
        if operation.of_negations {
            sides = sides.into_iter().map(operand).collect();
        }
        if operation.exchanged {
            sides.reverse();
        }
        match sides[..] {
            [a, b] => (self.sides(operation, a, b), operation.level),
            _ => (String::new(), ATOM),
        }
    }

    fn default_term(&self, exceptions: [u8; 3], j: u8, c: u8) -> String {
        let last = exceptions.iter().rposition(|&e| e != NONE);
        let present = &exceptions[..last.map_or(0, |last| last + 1)];
        let exceptions: Vec<String> = present
            .iter()
            .map(|&exception| match exception {
                NONE => "none".to_string(),
                node => self.node(node, 0),
            })
            .collect();
        let (j, c) = (self.node(j, 0), self.node(c, 0));
        format!("default [{} | {j} : {c}]", exceptions.join(", "))
    }
}

/// A statement in lines of at most 100 characters; a line end is as good as a space.
fn lines(statement: &str) -> String {
    let lines = wrapped(statement, 98, "    ");
    lines.iter().map(|line| format!("  {line}\n")).collect()
}

/// How tightly what needs no parentheses binds.
const ATOM: u8 = NEGATION + 1;

fn raise(word: &str, of: Type) -> String {
    format!("{word} {}", type_name(of))
}
