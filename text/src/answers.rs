//! What the proved programs say of a book, with names and words for numbers.

use crate::evaluation::enter;
use crate::files::Source;
use crate::inputs::{standard_input, Given};
use crate::locate::located;
use crate::output::Answer;
use crate::programs::{find, output_of};
use crate::reason::why_failed;
use crate::rulebook::Rulebook;
use crate::syntax::Word;
use crate::words::{self, cause, fault_name};
use second::value::{Failure, Value};
use std::path::Path;

/// Judges the book of a text, or a book, by the proved judge.
pub fn judge(source: &Source) -> Result<Answer, String> {
    let names = match source.is_book() {
        true => Vec::new(),
        false => source.scope_names()?,
    };
    judged(&source.book()?, &names)
}

/// The proved judge's answer about a book whose scopes may have names.
pub fn judged(book: &[u8], names: &[String]) -> Result<Answer, String> {
    let printed = output_of(&find("judgebook")?, book)?;
    let (word, number) = printed.trim_end().split_once(' ').unwrap_or_default();
    match (word, number.parse::<u8>()) {
        ("accepted", Ok(count)) => {
            let names = match names.is_empty() {
                true => String::new(),
                false => format!(": {}", names.join(", ")),
            };
            let scopes = if count == 1 { "scope" } else { "scopes" };
            let line = format!("accepted, {count} {scopes}{names}\n");
            Ok(Answer::good(line))
        }
        ("refused", Ok(number)) => Ok(Answer::bad(refused(book, number) + "\n")),
        _ => Err(format!("judgebook printed '{}'", printed.trim_end())),
    }
}

/// `refused 6, dangling reference: where`.
pub fn refused(book: &[u8], number: u8) -> String {
    let place = located(book, number).unwrap_or_else(|| cause(number).to_string());
    format!("refused {number}, {}: {place}", fault_name(number))
}

/// The values of a scope's variables, or how the run ended without them.
pub type Outcome = Result<Vec<Value>, Failure>;

/// Evaluates a scope by a program such as rulerun.
pub fn outcome_by(
    program: &Path,
    book: &Rulebook,
    scope: usize,
    given: &Given,
) -> Result<Outcome, String> {
    let input = standard_input(book, scope, given);
    let printed = output_of(program, &input)?;
    let mut lines = printed.lines();
    let first = lines.next().unwrap_or_default();
    let strange = || format!("rulerun printed '{}'", printed.trim_end());
    match first.split_once(' ').unwrap_or_default().0 {
        "value" => {
            let values: Option<Vec<Value>> = lines.map(read_value).collect();
            let whole = |values: &Vec<Value>| values.len() == book.scopes[scope].variables.len();
            Ok(Ok(values.filter(whole).ok_or_else(strange)?))
        }
        "empty" => Ok(Err(Failure::Empty)),
        "conflict" => Ok(Err(Failure::Conflict)),
        "above" => Ok(Err(Failure::Above)),
        "below" => Ok(Err(Failure::Below)),
        _ => Err(strange()),
    }
}

/// The value of `number value`; every variable has a line.
fn read_value(line: &str) -> Option<Value> {
    match line.split_once(' ')?.1 {
        "yes" => Some(Value::YesNo(true)),
        "no" => Some(Value::YesNo(false)),
        digits => digits.parse().ok().map(Value::Number),
    }
}

/// `name = value` of every variable, or why there are no values.
pub fn evaluate(book: &Rulebook, file: &str, scope: usize, given: Given) -> Result<Answer, String> {
    let failure = match outcome_by(&find("rulerun")?, book, scope, &given)? {
        Ok(values) => return Ok(Answer::good(lines(book, scope, &values))),
        Err(failure) => failure,
    };
    let word = words::outcome(failure);
    let entry = enter(book, scope, given);
    if entry.failure != Some(failure) {
        return Err(format!(
            "rulerun says {word}, and the reason that was looked for is another: please report it"
        ));
    }
    let why = why_failed(book, file, &entry);
    Ok(Answer::bad(format!("{word}: {why}\n")))
}

/// `name = value`, a line each.
fn lines(book: &Rulebook, scope: usize, values: &[Value]) -> String {
    let names = book.names[scope].variables.iter().zip(values);
    let line =
        |(name, value): (&Word, &Value)| format!("{} = {}\n", name.text, words::value(*value));
    names.map(line).collect()
}
