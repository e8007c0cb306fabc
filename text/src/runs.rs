//! Stored runs, one a line: a scope, inputs as `name=value`, ` = ` and what is expected: the
//! outcome with its count, then variables and their values, separated by ` / `. The count
//! may be left out, so may the word `value`, and only the variables that matter need be
//! named.

use crate::inputs::{find_scope, read_inputs, variable_named, Given};
use crate::rulebook::Rulebook;

/// A run as it is written.
pub struct Run<'a> {
    pub scope: usize,
    pub given: Given,
    /// What is asked, and what is expected.
    pub asked: &'a str,
    pub expected: &'a str,
}

/// The runs of a text, each with the number of its line, or what is wrong there.
pub fn runs_of<'a>(
    book: &'a Rulebook,
    text: &'a str,
) -> impl Iterator<Item = (usize, Result<Run<'a>, String>)> + 'a {
    let lines = (1..).zip(text.lines().map(str::trim));
    let lines = lines.filter(|(_, line)| !line.is_empty() && !line.starts_with('#'));
    lines.map(|(number, line)| (number, read_run(book, line)))
}

fn read_run<'a>(book: &Rulebook, line: &'a str) -> Result<Run<'a>, String> {
    let missing = || "a run is 'scope inputs = answer'".to_string();
    let (asked, expected) = line.split_once(" = ").ok_or_else(missing)?;
    let mut words = asked.split_whitespace();
    let scope = find_scope(book, words.next().ok_or_else(missing)?)?;
    let words: Vec<&str> = words.collect();
    let given = read_inputs(book, scope, &words)?;
    let first = expected.split_whitespace().next();
    if first == Some(FORMER) && variable_named(book, scope, FORMER).is_err() {
        let message = "is now 'above' or 'below': write the side on which the result lies";
        return Err(format!("'{FORMER}' {message}"));
    }
    Ok(Run {
        scope,
        given,
        asked: asked.trim(),
        expected: expected.trim(),
    })
}

/// What is said of one run: the outcome, its count, and values by name.
struct Said<'a> {
    outcome: &'a str,
    count: Option<&'a str>,
    values: Vec<(&'a str, &'a str)>,
}

/// The outcome that was both above and below.
const FORMER: &str = "range";

const OUTCOMES: [&str; 6] = ["value", "empty", "conflict", "above", "below", "refused"];

impl<'a> Said<'a> {
    /// Reads parts such as `value 1` and `speed 4559808`.
    fn of(parts: impl Iterator<Item = &'a str>) -> Said<'a> {
        let mut parts = parts
            .map(str::trim)
            .filter(|part| !part.is_empty())
            .peekable();
        let pair = |part: &'a str| part.split_once(' ').unwrap_or((part, ""));
        let first = parts.peek().map(|&part| pair(part));
        let (outcome, count) = match first {
            Some((word, count)) if OUTCOMES.contains(&word) => {
                parts.next();
                (word, count)
            }
            _ => ("value", ""),
        };
        Said {
            outcome,
            count: (!count.is_empty()).then_some(count),
            values: parts.map(pair).collect(),
        }
    }
}

impl Run<'_> {
    /// What is expected, without what is given.
    pub fn news(&self) -> String {
        let given = |part: &str| {
            let (name, value) = part.trim().split_once(' ').unwrap_or((part, ""));
            let input = format!("{name}={value}");
            self.asked.split_whitespace().any(|word| word == input)
        };
        let parts = self.expected.split(" / ").filter(|part| !given(part));
        parts.collect::<Vec<&str>>().join(" / ")
    }

    /// Nothing where what a program printed is what is expected, or the difference.
    pub fn compare(&self, book: &Rulebook, printed: &str) -> Result<(), String> {
        let expected = Said::of(self.expected.split(" / "));
        let found = Said::of(printed.lines());
        let outcome = |said: &Said| match expected.count {
            Some(_) => format!("{} {}", said.outcome, said.count.unwrap_or("")),
            None => said.outcome.to_string(),
        };
        let mut wrong = Vec::new();
        if outcome(&expected) != outcome(&found) {
            wrong.push(differ("the outcome", &outcome(&expected), &outcome(&found)));
        }
        for &(name, value) in &expected.values {
            let number = variable_named(book, self.scope, name)?.to_string();
            let found = found
                .values
                .iter()
                .find(|(variable, _)| *variable == number);
            let found = found.map_or("nothing", |&(_, value)| value);
            if found != value.replace('_', "") {
                wrong.push(differ(name, value, found));
            }
        }
        match wrong.is_empty() {
            true => Ok(()),
            false => Err(format!("{}: {}", self.asked, wrong.join("; "))),
        }
    }
}

fn differ(what: &str, expected: &str, found: &str) -> String {
    format!("{what}: {expected} expected, {found} found")
}
