//! Choices of a scope's inputs: the variables that nothing in the scope defines. Yes/no
//! variables take both values, numbers those on both sides of the constants that they are
//! compared with.

use crate::inputs::Given;
use crate::rulebook::Rulebook;
use crate::thresholds::thresholds;
use crate::words;
use second::kind;
use second::kind::NONE;
use second::scope::{Node, Scope};
use second::value::{Type, Value};
use second::weights_of;

/// No more choices than this are tried.
pub const MOST: u64 = 1 << 16;

/// No more scopes than this are entered in all.
const MOST_ENTRIES: u64 = 1 << 20;

/// Inputs with the values that each of them takes.
pub struct Choices {
    pub inputs: Vec<usize>,
    values: Vec<Vec<Value>>,
    variables: usize,
    /// How many choices are tried.
    pub count: u64,
    /// Whether they are all that there are of these values.
    all: bool,
    /// Whether they are all cases that there are.
    pub exact: bool,
}

/// The own variables that no clause defines.
pub fn inputs_of(scope: &Scope) -> Vec<usize> {
    let defined = |v: usize| {
        let own = |c: &second::scope::Clause| {
            c.target.subscope == NONE && usize::from(c.target.variable) == v
        };
        scope.clauses.iter().any(own)
    };
    (0..scope.variables.len())
        .filter(|&v| !defined(v))
        .collect()
}

impl Choices {
    /// All choices of a scope's inputs, or some of them where they are too many.
    pub fn of(book: &Rulebook, scope: usize) -> Choices {
        let inputs = inputs_of(&book.scopes[scope]);
        let deciding = thresholds(book, scope);
        let values = |&v: &usize| match (book.scopes[scope].variables[v], &deciding) {
            (Type::YesNo, _) => vec![Value::YesNo(false), Value::YesNo(true)],
            (Type::Number, Some(deciding)) if deciding[v].is_empty() => vec![Value::Number(0)],
            (Type::Number, Some(deciding)) => numbers(&deciding[v]),
            (Type::Number, None) => numbers(&constants(book, scope)),
        };
        let values: Vec<Vec<Value>> = inputs.iter().map(values).collect();
        let most = MOST.min(MOST_ENTRIES / weight(book, scope));
        let product = values.iter().try_fold(1u64, |product, values| {
            let product = product.checked_mul(values.len() as u64)?;
            (product <= most).then_some(product)
        });
        Choices {
            variables: book.scopes[scope].variables.len(),
            inputs,
            values,
            count: product.unwrap_or(most / 4).max(1),
            all: product.is_some(),
            exact: product.is_some() && deciding.is_some(),
        }
    }

    /// The choice of a number below the count. Where these are not all choices, they are
    /// spread over them.
    pub fn given(&self, number: u64) -> Given {
        let mut given = vec![None; self.variables];
        let mut rest = number;
        for (&input, values) in self.inputs.iter().zip(&self.values).rev() {
            let count = values.len() as u64;
            let place = match self.all {
                true => rest % count,
                false => mixed(rest, input as u64) % count,
            };
            given[input] = Some(values[place as usize]);
            rest = match self.all {
                true => rest / count,
                false => rest,
            };
        }
        given
    }
}

/// A number without visible order from two.
fn mixed(a: u64, b: u64) -> u64 {
    let mut x = a.wrapping_mul(0x9e37_79b9_7f4a_7c15) ^ b.wrapping_mul(0xd1b5_4a32_d192_ed03);
    x ^= x >> 29;
    x = x.wrapping_mul(0xbf58_476d_1ce4_e5b9);
    x ^ (x >> 32)
}

/// How many scopes a run of a scope enters.
fn weight(book: &Rulebook, scope: usize) -> u64 {
    let weights = weights_of(&crate::writer::book_bytes(&book.scopes)).unwrap_or_default();
    weights.get(scope).map_or(1, |&weight| weight as u64)
}

/// Numbers as values, those next to zero first.
fn numbers(numbers: &[i32]) -> Vec<Value> {
    let mut numbers = numbers.to_vec();
    numbers.sort_by_key(|&n| (n.unsigned_abs(), n < 0));
    numbers.dedup();
    numbers.into_iter().map(Value::Number).collect()
}

/// The constants of comparisons in a scope and in those it calls, and their neighbours.
fn constants(book: &Rulebook, scope: usize) -> Vec<i32> {
    let mut numbers = vec![0, 1];
    let mut reached = vec![scope];
    let mut next = 0;
    while let Some(&scope) = reached.get(next) {
        next += 1;
        compared(&book.scopes[scope], &mut numbers);
        for &called in &book.scopes[scope].subscopes {
            if !reached.contains(&usize::from(called)) {
                reached.push(usize::from(called));
            }
        }
    }
    numbers
}

fn compared(scope: &Scope, numbers: &mut Vec<i32>) {
    for node in &scope.nodes {
        if let Node::Binary(kind::LESS | kind::EQUAL, a, b) = *node {
            for side in [a, b] {
                if let Node::Number(n) = scope.nodes[usize::from(side)] {
                    numbers.extend([n.saturating_sub(1), n, n.saturating_add(1)]);
                }
            }
        }
    }
}

/// `name=value` of each input, as they are typed.
pub fn typed(book: &Rulebook, scope: usize, given: &Given) -> String {
    let names = book.names[scope].variables.iter().zip(given);
    let word = |(name, value): (&crate::syntax::Word, &Option<Value>)| {
        value.map(|value| format!("{}={}", name.text, words::value(value)))
    };
    let words: Vec<String> = names.filter_map(word).collect();
    words.join(" ")
}
