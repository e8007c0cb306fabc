//! One page about a book, to print or to send: its rules as written, warnings, drawings,
//! tables and example runs.

use crate::answers::judged;
use crate::cases::Cases;
use crate::choices::Choices;
use crate::draw::Drawing;
use crate::evaluator::Evaluator;
use crate::html::{escaped, page};
use crate::inputs::standard_input;
use crate::map::map;
use crate::place::{Fault, Place};
use crate::programs::{find, output_of};
use crate::rulebook::Rulebook;
use crate::runs::runs_of;
use crate::table::Table;
use crate::warnings::warnings;
use crate::writer::book_bytes;
use second::kind::NONE;
use second::scope::{Clause, Target};
use second::value::Type;

/// No more cases than this stand in a table of a report.
const MOST: u64 = 64;

/// What a report is about.
pub struct Report<'a> {
    pub file: &'a str,
    pub book: &'a Rulebook,
    pub text: &'a str,
    /// The stored runs, where there are any.
    pub runs: Option<&'a str>,
}

impl Report<'_> {
    /// The page.
    pub fn page(&self) -> Result<String, String> {
        let title = format!("The rules of {}", self.file);
        let mut body = format!(
            "<h1>{}</h1>\n{}{}",
            escaped(&title),
            self.judged()?,
            self.contents()
        );
        body += &self.warnings();
        if self.book.scopes.len() > 1 {
            let map = map(self.book, self.file);
            body += &format!("<h2 id=\"map\">Scopes</h2>\n<div class=\"drawing\">{map}</div>\n");
        }
        for scope in 0..self.book.scopes.len() {
            body += &self.scope(scope)?;
        }
        body += &self.examples()?;
        Ok(page(&title, &body))
    }

    fn judged(&self) -> Result<String, String> {
        let names: Vec<String> = self.names().map(str::to_string).collect();
        let answer = judged(&book_bytes(&self.book.scopes), &names)?;
        let said = String::from_utf8_lossy(&answer.bytes).into_owned();
        Ok(format!(
            "<p>The proved judge says: {}.</p>\n",
            escaped(said.trim_end())
        ))
    }

    fn names(&self) -> impl Iterator<Item = &str> {
        self.book
            .names
            .iter()
            .map(|names| names.scope.text.as_str())
    }

    fn contents(&self) -> String {
        let link = |to: &str, words: &str| format!("<a href=\"#{to}\">{}</a>\n", escaped(words));
        let mut links = link("warnings", "Warnings");
        for name in self.names() {
            links += &link(
                &format!("scope-{}", escaped(name)),
                &format!("Scope {name}"),
            );
        }
        if self.runs.is_some() {
            links += &link("runs", "Example runs");
        }
        format!("<nav>{links}</nav>\n")
    }

    fn warnings(&self) -> String {
        let (warnings, tried) = warnings(self.book);
        let mut html = "<h2 id=\"warnings\">Warnings</h2>\n".to_string();
        html += &match warnings.is_empty() {
            true => "<p>None.</p>\n".to_string(),
            false => {
                let items = warnings.iter().map(warning_item);
                format!("<ul>\n{}</ul>\n", items.collect::<String>())
            }
        };
        html + &format!("<p>{}.</p>\n", escaped(&tried.join("; ")))
    }

    fn scope(&self, scope: usize) -> Result<String, String> {
        let name = escaped(&self.book.names[scope].scope.text);
        let mut html = format!("<h2 id=\"scope-{name}\">Scope {name}</h2>\n");
        html += &format!("<pre>{}</pre>\n", escaped(&self.written(scope)));
        for target in drawn_targets(self.book, scope) {
            let drawing = Drawing {
                book: self.book,
                file: self.file,
                scope,
                target,
            };
            html += &format!("<div class=\"drawing\">{}</div>\n", drawing.plain());
        }
        Ok(html + &self.table(scope)?)
    }

    /// The lines of a scope with their numbers, and the comment before it.
    fn written(&self, scope: usize) -> String {
        let lines: Vec<&str> = self.text.lines().collect();
        let start = |scope: usize| {
            let mut line = match self.book.names.get(scope) {
                Some(names) => names.scope.place.line - 1,
                None => return lines.len(),
            };
            while line > 0 && (lines[line - 1].trim_start().starts_with('#') || scope == 0) {
                line -= 1;
            }
            line
        };
        let first = start(scope);
        let mut end = start(scope + 1).max(first + 1);
        while end > first + 1 && lines[end - 1].trim().is_empty() {
            end -= 1;
        }
        let numbered = (first..end).map(|i| format!("{:>4}  {}\n", i + 1, lines[i]));
        numbered.collect()
    }

    /// All cases, where they are few.
    fn table(&self, scope: usize) -> Result<String, String> {
        let choices = Choices::of(self.book, scope);
        let (count, exact) = (choices.count, choices.exact);
        if choices.inputs.is_empty() || count == 1 {
            return Ok(String::new());
        }
        if !exact || count > MOST {
            let cases = if exact {
                count.to_string()
            } else {
                "too many".to_string()
            };
            return Ok(format!(
                "<p>There is no table of all cases: there are {cases}.</p>\n"
            ));
        }
        let of = |&v: &usize| self.book.scopes[scope].variables[v];
        let numbers = choices.inputs.iter().map(of).any(|of| of == Type::Number);
        let note = match numbers {
            true => ", each number on both sides of what it is compared with",
            false => "",
        };
        let cases = Cases::of_choices(self.book, scope, &choices);
        let table = Table::of(&Evaluator::found()?, self.book, scope, cases)?;
        Ok(format!("<h3>All cases{note}</h3>\n{}", table.html_table()))
    }

    fn examples(&self) -> Result<String, String> {
        let Some(runs) = self.runs else {
            return Ok(String::new());
        };
        let program = find("rulerun")?;
        let mut html = "<h2 id=\"runs\">Example runs</h2>\n<table>\n<thead><tr><th>line</th>\
             <th>scope and inputs</th><th>expected</th><th>the proved evaluator</th></tr></thead>\n"
            .to_string();
        for (number, run) in runs_of(self.book, runs) {
            let [asked, expected, said] = match run {
                Err(wrong) => [String::new(), String::new(), wrong],
                Ok(run) => {
                    let input = standard_input(self.book, run.scope, &run.given);
                    let said = run.compare(self.book, &output_of(&program, &input)?);
                    let said = said.map_or_else(|wrong| wrong, |()| "agrees".to_string());
                    [run.asked.to_string(), run.news(), said]
                }
            };
            let [asked, expected, said] = [asked, expected, said].map(|words| escaped(&words));
            html += &format!(
                "<tr><td>{number}</td><td class=\"path\">{asked}</td><td>{expected}</td><td>{said}</td></tr>\n"
            );
        }
        Ok(html + "</table>\n")
    }
}

/// `line 3, column 7: what is wrong`.
fn warning_item(warning: &Fault) -> String {
    let Place { line, column } = warning.place.unwrap_or_default();
    let words = format!("line {line}, column {column}: {}", warning.message);
    format!("<li class=\"warning\">{}</li>\n", escaped(&words))
}

/// The targets that more than one case decides: several clauses, or one with a condition.
fn drawn_targets(book: &Rulebook, scope: usize) -> Vec<Target> {
    let clauses = &book.scopes[scope].clauses;
    let mut targets: Vec<Target> = Vec::new();
    for clause in clauses {
        let of_target = |other: &&Clause| other.target == clause.target;
        let several = clauses.iter().filter(of_target).count() > 1;
        let decided = several || clause.condition != NONE;
        if decided && !targets.contains(&clause.target) {
            targets.push(clause.target);
        }
    }
    targets
}
