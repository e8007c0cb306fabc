//! Program rulerun: "evaluates standard input: book length (2 bytes, high first),
//! book, scope byte, inputs".

use crate::answer::Outcome;
use crate::decode::MAX_VARIABLES;
use crate::evaluate::evaluate;
use crate::refusal::Refusal;
use crate::value::number;
use std::fmt::Write;

/// Everything rulerun prints for what it read.
pub fn rulerun(bytes: &[u8]) -> String {
    let mut results = [0; 6 * MAX_VARIABLES];
    let Some((book, scope, inputs)) = split(bytes) else {
        return refused(Refusal::Truncated.into());
    };
    match evaluate(book, scope, inputs, &mut results) {
        Err(refusal) => refused(refusal),
        Ok(answer) => {
            let name = match answer.outcome {
                Outcome::Values => "value",
                Outcome::Empty => "empty",
                Outcome::Conflict => "conflict",
                Outcome::Above => "above",
                Outcome::Below => "below",
            };
            let values = value_lines(&results[..answer.length]);
            format!("{name} {}\n{values}", answer.count)
        }
    }
}

/// Book, scope and inputs; nothing where one of the first two is not all there.
fn split(bytes: &[u8]) -> Option<(&[u8], usize, &[u8])> {
    let (&length, rest) = bytes.split_first_chunk::<2>()?;
    let (book, rest) = rest.split_at_checked(usize::from(u16::from_be_bytes(length)))?;
    let (&scope, inputs) = rest.split_first()?;
    Some((book, usize::from(scope), inputs))
}

fn refused(refusal: u8) -> String {
    format!("refused {refusal}\n")
}

/// "Number and value of each variable", from result records.
fn value_lines(mut results: &[u8]) -> String {
    let mut lines = String::new();
    while let [kind, variable, rest @ ..] = results {
        let (value, length) = match (kind, rest.first()) {
            (1, Some(1)) => ("yes".to_string(), 1),
            (1, _) => ("no".to_string(), 1),
            _ => (number(rest).to_string(), 4),
        };
        writeln!(lines, "{variable} {value}").expect("writing to a string");
        results = &rest[length..];
    }
    lines
}
