//! Choices of some variables of a scope, with what the proved evaluator makes of each: as
//! text, as CSV, as HTML.

use crate::answers::Outcome;
use crate::cases::Cases;
use crate::choices::inputs_of;
use crate::evaluator::Evaluator;
use crate::html::{escaped, page};
use crate::inputs::{given_words, Given};
use crate::rulebook::Rulebook;
use crate::words;

/// A table: the variables that vary, those that are shown, and the rows.
pub struct Table<'a> {
    book: &'a Rulebook,
    scope: usize,
    fixed: Given,
    varied: Vec<usize>,
    shown: Vec<usize>,
    rows: Vec<Row>,
}

/// The values that were chosen, and those of every variable or why there are none.
struct Row {
    given: Given,
    values: Outcome,
}

impl<'a> Table<'a> {
    /// What is made of the cases.
    pub fn of(
        by: &Evaluator,
        book: &'a Rulebook,
        scope: usize,
        cases: Cases,
    ) -> Result<Table<'a>, String> {
        let outcomes = by.outcomes(book, scope, &cases)?;
        let rows = cases.rows.into_iter().zip(outcomes);
        Ok(Table {
            book,
            scope,
            shown: shown(book, scope, &cases.fixed, &cases.varied),
            fixed: cases.fixed,
            varied: cases.varied,
            rows: rows.map(|(given, values)| Row { given, values }).collect(),
        })
    }

    fn name(&self, variable: usize) -> String {
        self.book.names[self.scope].variables[variable].text.clone()
    }

    /// Whether a variable has one value in all rows, of which there are several.
    fn is_constant(&self, variable: usize) -> bool {
        let value = |row: &Row| row.values.as_ref().ok().map(|values| values[variable]);
        let first = self.rows.first().and_then(value);
        self.rows.len() > 1 && first.is_some() && self.rows.iter().all(|row| value(row) == first)
    }

    /// The variables that get a column, and those said once for all rows.
    fn columns(&self) -> (Vec<usize>, Vec<usize>) {
        let shown = self.shown.iter();
        shown.partition(|&&variable| !self.is_constant(variable))
    }

    /// The cells of a row: the choice, then values; one word where there are none.
    fn cells(&self, row: &Row, columns: &[usize]) -> (Vec<String>, Vec<String>) {
        let chosen = self.varied.iter().filter_map(|&v| row.given[v]);
        let values = match &row.values {
            Ok(values) => columns.iter().map(|&v| words::value(values[v])).collect(),
            Err(failure) => vec![words::outcome(*failure).to_string()],
        };
        (chosen.map(words::value).collect(), values)
    }

    /// What stands over the table.
    fn title(&self) -> String {
        let given = given_words(self.book, self.scope, &self.fixed);
        let scope = &self.book.names[self.scope].scope.text;
        match given.is_empty() {
            true => format!("scope {scope}"),
            false => format!("scope {scope}, given {}", given.join(", ")),
        }
    }

    /// What stands below the table: inputs that are missing, and what all rows share.
    fn notes(&self) -> Vec<String> {
        let open = |v: &usize| self.fixed[*v].is_none() && !self.varied.contains(v);
        let inputs = inputs_of(&self.book.scopes[self.scope]).into_iter();
        let missing: Vec<String> = inputs.filter(open).map(|v| self.name(v)).collect();
        let (_, constant) = self.columns();
        let first = self.rows.first().and_then(|row| row.values.as_ref().ok());
        let word = |&v: &usize| {
            let value = first.map_or_else(String::new, |first| words::value(first[v]));
            format!("{} = {value}", self.name(v))
        };
        let said: Vec<String> = constant.iter().map(word).collect();
        let notes = [("not given", missing), ("in every row", said)];
        let notes = notes.into_iter().filter(|(_, words)| !words.is_empty());
        notes
            .map(|(what, words)| format!("{what}: {}", words.join(", ")))
            .collect()
    }

    /// Columns of one width each, a bar between choice and values.
    pub fn text(&self) -> String {
        let (columns, _) = self.columns();
        let names = |of: &[usize]| of.iter().map(|&v| self.name(v)).collect::<Vec<String>>();
        let mut lines = vec![(names(&self.varied), names(&columns))];
        lines.extend(self.rows.iter().map(|row| self.cells(row, &columns)));
        let left = widths(lines.iter().map(|(cells, _)| cells));
        let full = lines.iter().map(|(_, cells)| cells);
        let right = widths(full.filter(|cells| cells.len() == columns.len()));
        let mut text = format!("{}\n\n", self.title());
        for (number, (chosen, values)) in lines.iter().enumerate() {
            let line = format!("{}| {}", padded(chosen, &left), padded(values, &right));
            text += &format!("{}\n", line.trim_end());
            if number == 0 {
                let [left, right] = [&left, &right].map(|w| w.iter().map(|w| w + 2).sum());
                text += &format!("{}+{}\n", "-".repeat(left), "-".repeat(right));
            }
        }
        let notes = self.notes();
        text + &notes
            .iter()
            .map(|note| format!("\n{note}\n"))
            .collect::<String>()
    }

    /// A heading, then a line a row; the outcome stands before the values.
    pub fn csv(&self) -> String {
        let columns = self.shown.clone();
        let mut heading: Vec<String> = self.varied.iter().map(|&v| self.name(v)).collect();
        heading.push("outcome".to_string());
        heading.extend(columns.iter().map(|&v| self.name(v)));
        let mut text = format!("{}\n", heading.join(","));
        for row in &self.rows {
            let (mut cells, values) = self.cells(row, &columns);
            match row.values {
                Ok(_) => {
                    cells.push("values".to_string());
                    cells.extend(values);
                }
                Err(_) => {
                    cells.extend(values);
                    cells.extend(columns.iter().map(|_| String::new()));
                }
            }
            text += &format!("{}\n", cells.join(","));
        }
        text
    }

    /// A page with the table alone.
    pub fn html(&self) -> String {
        let title = self.title();
        page(
            &title,
            &format!("<h1>{}</h1>\n{}", escaped(&title), self.html_table()),
        )
    }

    /// The table, for a page.
    pub fn html_table(&self) -> String {
        let (columns, _) = self.columns();
        let heading = |of: &[usize], class: &str| -> String {
            let cell = |&v: &usize| format!("<th{class}>{}</th>", escaped(&self.name(v)));
            of.iter().map(cell).collect()
        };
        let mut html = format!(
            "<table>\n<thead><tr>{}{}</tr></thead>\n<tbody>\n",
            heading(&self.varied, ""),
            heading(&columns, " class=\"result\"")
        );
        for row in &self.rows {
            html += &self.html_row(row, &columns);
        }
        html += "</tbody>\n</table>\n";
        let notes = self.notes();
        html + &notes
            .iter()
            .map(|note| format!("<p>{}</p>\n", escaped(note)))
            .collect::<String>()
    }

    fn html_row(&self, row: &Row, columns: &[usize]) -> String {
        let (chosen, values) = self.cells(row, columns);
        let chosen: String = chosen
            .iter()
            .map(|c| match c.as_str() {
                "yes" | "no" => format!("<td class=\"{c}\">{c}</td>"),
                _ => format!("<td class=\"result\">{c}</td>"),
            })
            .collect();
        let values: String = match row.values {
            Ok(_) => values
                .iter()
                .map(|value| format!("<td class=\"result\">{value}</td>"))
                .collect(),
            Err(_) => {
                let span = columns.len().max(1);
                format!("<td class=\"none\" colspan=\"{span}\">{}</td>", values[0])
            }
        };
        format!("<tr>{chosen}{values}</tr>\n")
    }
}

/// What is computed: neither given nor chosen, and no input.
fn shown(book: &Rulebook, scope: usize, fixed: &Given, varied: &[usize]) -> Vec<usize> {
    let inputs = inputs_of(&book.scopes[scope]);
    let computed = |&v: &usize| fixed[v].is_none() && !varied.contains(&v) && !inputs.contains(&v);
    (0..fixed.len()).filter(computed).collect()
}

fn widths<'a>(lines: impl Iterator<Item = &'a Vec<String>>) -> Vec<usize> {
    let mut widths: Vec<usize> = Vec::new();
    for cells in lines {
        widths.resize(widths.len().max(cells.len()), 0);
        for (width, cell) in widths.iter_mut().zip(cells) {
            *width = (*width).max(cell.chars().count());
        }
    }
    widths
}

fn padded(cells: &[String], widths: &[usize]) -> String {
    let widths = widths.iter().copied().chain(std::iter::repeat(0));
    let cells = cells.iter().zip(widths);
    cells
        .map(|(cell, width)| format!("{cell:<width$}  "))
        .collect()
}
