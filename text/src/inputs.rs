//! Inputs as `name=value`, and the bytes that rulerun reads.

use crate::nearest::{did_you_mean, nearest, yes_no_word};
use crate::rulebook::Rulebook;
use crate::words;
use crate::writer::book_bytes;
use second::value::{Type, Value};

/// The given values of a scope's variables.
pub type Given = Vec<Option<Value>>;

/// Reads `name=value` words for a scope.
pub fn read_inputs(book: &Rulebook, scope: usize, words: &[&str]) -> Result<Given, String> {
    let mut given = vec![None; book.scopes[scope].variables.len()];
    for word in words {
        let (variable, value) = read_input(book, scope, word)?;
        if given[variable].replace(value).is_some() {
            return Err(format!("input '{word}': this variable is given twice"));
        }
    }
    Ok(given)
}

fn read_input(book: &Rulebook, scope: usize, word: &str) -> Result<(usize, Value), String> {
    let Some((name, value)) = word.split_once('=') else {
        return Err(format!("input '{word}': write it as name=value"));
    };
    let variable = variable_named(book, scope, name);
    let variable = variable.map_err(|wrong| format!("input '{word}': {wrong}"))?;
    let of = book.scopes[scope].variables[variable];
    let read = match (of, value) {
        (Type::YesNo, "yes") => Some(Value::YesNo(true)),
        (Type::YesNo, "no") => Some(Value::YesNo(false)),
        (Type::YesNo, _) => None,
        (Type::Number, digits) => number(digits).map(Value::Number),
    };
    let wanted = match of {
        Type::YesNo => "neither yes nor no",
        Type::Number => "no number from -2147483648 to 2147483647",
    };
    let hint = match (of, yes_no_word(value)) {
        (Type::YesNo, Some(word)) => format!("; write '{word}'"),
        _ => String::new(),
    };
    let wrong = || format!("input '{word}': '{value}' is {wanted}{hint}");
    Ok((variable, read.ok_or_else(wrong)?))
}

/// The own variable of a name.
pub fn variable_named(book: &Rulebook, scope: usize, name: &str) -> Result<usize, String> {
    let names = &book.names[scope];
    let found = names.variables.iter().position(|v| v.text == name);
    found.ok_or_else(|| {
        let hint = match name.contains('.') {
            true => "; only the scope's own variables are named here".to_string(),
            false => did_you_mean(name, names.variables.iter().map(|v| v.text.as_str())),
        };
        let scope = &names.scope.text;
        format!("there is no variable '{name}' in scope '{scope}'{hint}")
    })
}

/// A number, with `_` between its digits where it helps the eye, as in the language.
fn number(word: &str) -> Option<i32> {
    let digits = word.strip_prefix('-').unwrap_or(word);
    let written = |c: char| c.is_ascii_digit() || c == '_';
    if !digits.starts_with(|c: char| c.is_ascii_digit()) || !digits.chars().all(written) {
        return None;
    }
    word.replace('_', "").parse().ok()
}

/// Book length, book, scope and input records.
pub fn standard_input(book: &Rulebook, scope: usize, given: &Given) -> Vec<u8> {
    let records = book_bytes(&book.scopes);
    let mut bytes = (records.len() as u16).to_be_bytes().to_vec();
    bytes.extend(records);
    bytes.push(scope as u8);
    bytes.extend(input_records(given));
    bytes
}

pub fn input_records(given: &Given) -> Vec<u8> {
    let mut bytes = Vec::new();
    for (variable, value) in (0u8..).zip(given) {
        match *value {
            None => {}
            Some(Value::YesNo(yes)) => bytes.extend([1, variable, u8::from(yes)]),
            Some(Value::Number(n)) => {
                bytes.extend([2, variable]);
                bytes.extend(n.to_be_bytes());
            }
        }
    }
    bytes
}

/// The scope of a name.
pub fn find_scope(book: &Rulebook, name: &str) -> Result<usize, String> {
    let found = book.scope_named(name);
    found.ok_or_else(|| {
        let known: Vec<&str> = book.names.iter().map(|n| n.scope.text.as_str()).collect();
        match nearest(name, known.iter().copied()) {
            Some(near) => format!("there is no scope '{name}'; did you mean '{near}'?"),
            None => format!("there is no scope '{name}'; there is: {}", known.join(", ")),
        }
    })
}

/// `name = value` of each given variable.
pub fn given_words(book: &Rulebook, scope: usize, given: &Given) -> Vec<String> {
    let names = book.names[scope].variables.iter().zip(given);
    let word = |(name, value): (&crate::syntax::Word, &Option<Value>)| {
        value.map(|value| format!("{} = {}", name.text, words::value(value)))
    };
    names.filter_map(word).collect()
}
