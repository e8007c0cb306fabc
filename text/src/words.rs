//! Numbers of the specification in plain words, and lines of words.

use second::value::{Failure, Value};

/// A refusal of the judge.
pub fn refusal(number: u8) -> String {
    format!("{} (number {number})", cause(number))
}

/// Why a service refuses.
pub fn cause(number: u8) -> &'static str {
    match number {
        1 => "a record's body passes the end",
        2 => "a record of unknown kind",
        3 => "a record out of order, or before the first scope",
        4 => "a limit is passed",
        5 => "a type, constant or rule byte outside its values",
        6 => "a number names nothing, or a node or clause names a later one or another target",
        7 => "a node is named more than once",
        8 => "a type does not fit",
        9 => "rule and definition on one target",
        10 => "a scope reaches itself through sub-scopes",
        11 => "a scope enters more than 4,096 scopes",
        12 => "a step depends on itself",
        13 => "there is no such scope",
        14 => "the inputs do not fit the scope",
        15 => "the memory for the answer is too short",
        18 => "more than 12 variables vary, or one is repeated, given, not yes/no or absent",
        _ => "refused",
    }
}

/// The short name of a refusal.
pub fn fault_name(number: u8) -> &'static str {
    match number {
        1 => "truncated",
        2 => "unknown kind",
        3 => "out of order",
        4 => "limit exceeded",
        5 => "invalid byte",
        6 => "dangling reference",
        7 => "shared node",
        8 => "type mismatch",
        9 => "mixed clauses",
        10 => "scope cycle",
        11 => "weight exceeded",
        12 => "dependency cycle",
        13 => "no such scope",
        14 => "bad input",
        15 => "buffer too small",
        18 => "bad choice",
        _ => "refused",
    }
}

pub fn value(value: Value) -> String {
    match value {
        Value::YesNo(true) => "yes".to_string(),
        Value::YesNo(false) => "no".to_string(),
        Value::Number(n) => n.to_string(),
    }
}

pub fn failure(failure: Failure) -> &'static str {
    match failure {
        Failure::Empty => "empty",
        Failure::Conflict => "in conflict",
        Failure::Above => "above the range",
        Failure::Below => "below the range",
    }
}

/// What an evaluation without values ended in.
pub fn outcome(ended: Failure) -> &'static str {
    match ended {
        Failure::Conflict => "conflict",
        ended => failure(ended),
    }
}

/// The number that a result above or below the range passes.
pub fn bound(side: Failure) -> Option<String> {
    match side {
        Failure::Above => Some(format!("above {}", i32::MAX)),
        Failure::Below => Some(format!("below {}", i32::MIN)),
        Failure::Empty | Failure::Conflict => None,
    }
}

/// Lines of at most so many characters, broken at spaces, those after the first
/// indented; a longer word stays whole.
pub fn wrapped(text: &str, widest: usize, indent: &str) -> Vec<String> {
    let mut lines: Vec<String> = Vec::new();
    for word in text.split(' ') {
        match lines.last_mut() {
            Some(line) if line.chars().count() + 1 + word.chars().count() <= widest => {
                line.push(' ');
                line.push_str(word);
            }
            Some(_) => lines.push(format!("{indent}{word}")),
            None => lines.push(word.to_string()),
        }
    }
    lines
}

#[cfg(test)]
mod tests {
    use super::*;

    #[test]
    fn long_lines_are_broken_at_spaces() {
        let expected = ["one two", "  three", "  fourfivesix", "  7"];
        assert_eq!(wrapped("one two three fourfivesix 7", 8, "  "), expected);
        assert_eq!(wrapped("", 8, "  "), [""]);
    }
}
