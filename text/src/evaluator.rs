//! What the proved engine makes of many choices: by its library, in one call for all choices
//! of the yes/no variables, or by the program rulerun, started for each.

use crate::answers::{outcome_by, refused, Outcome};
use crate::cases::Cases;
use crate::inputs::{input_records, Given};
use crate::library::{Tabulate, TABULATE};
use crate::programs::find;
use crate::rulebook::Rulebook;
use crate::writer::book_bytes;
use second::records::{read_inputs, results_length};
use second::value::{Failure, Type, Value};
use std::collections::btree_map::{BTreeMap, Entry};
use std::path::PathBuf;

/// The library's service, or the program.
pub enum Evaluator {
    Library(Tabulate),
    Program(PathBuf),
}

impl Evaluator {
    /// The library where it is linked, else rulerun.
    pub fn found() -> Result<Evaluator, String> {
        match TABULATE {
            Some(tabulate) => Ok(Evaluator::Library(tabulate)),
            None => find("rulerun").map(Evaluator::Program),
        }
    }

    /// The outcome of each row.
    pub fn outcomes(
        &self,
        book: &Rulebook,
        scope: usize,
        cases: &Cases,
    ) -> Result<Vec<Outcome>, String> {
        match self {
            Evaluator::Library(tabulate) => {
                let types = &book.scopes[scope].variables;
                let service = Service {
                    tabulate: *tabulate,
                    book: book_bytes(&book.scopes),
                    scope,
                    types,
                    chosen: yes_no(types, &cases.varied),
                };
                let name = &book.names[scope].scope.text;
                let wrong = |what| format!("scope {name}: the engine's library {what}");
                service.outcomes(&cases.rows).map_err(wrong)
            }
            Evaluator::Program(path) => {
                let rows = cases.rows.iter();
                rows.map(|row| outcome_by(path, book, scope, row)).collect()
            }
        }
    }
}

/// The yes/no variables among some, in number order.
fn yes_no(types: &[Type], among: &[usize]) -> Vec<usize> {
    let varies = |v: &usize| types[*v] == Type::YesNo && among.contains(v);
    (0..types.len()).filter(varies).collect()
}

/// The library's service for the choices of some variables of a scope.
struct Service<'a> {
    tabulate: Tabulate,
    book: Vec<u8>,
    scope: usize,
    types: &'a [Type],
    chosen: Vec<usize>,
}

impl Service<'_> {
    /// One call for each choice of what is not yes/no.
    fn outcomes(&self, rows: &[Given]) -> Result<Vec<Outcome>, String> {
        let mut tables: BTreeMap<Vec<u8>, Vec<Outcome>> = BTreeMap::new();
        let mut outcomes = Vec::new();
        for row in rows {
            let (number, others) = self.parted(row);
            let table = match tables.entry(input_records(&others)) {
                Entry::Occupied(known) => known.into_mut(),
                Entry::Vacant(place) => {
                    let table = self.table(place.key())?;
                    place.insert(table)
                }
            };
            outcomes.push(table[number].clone());
        }
        Ok(outcomes)
    }

    /// The number of a row in its table, and what the row gives besides the choice.
    fn parted(&self, row: &Given) -> (usize, Given) {
        let mut others = row.clone();
        let mut number = 0;
        for &variable in &self.chosen {
            let yes = others[variable].take() == Some(Value::YesNo(true));
            number = 2 * number + usize::from(yes);
        }
        (number, others)
    }

    /// The outcome of every choice, in the library's order. Cases are sound before they come
    /// here, so what is said of a refusal is for those who mend this program.
    fn table(&self, inputs: &[u8]) -> Result<Vec<Outcome>, String> {
        let chosen: Vec<u8> = self.chosen.iter().map(|&v| v as u8).collect();
        let table = (self.tabulate)(&self.book, self.scope, &chosen, inputs);
        let table = table.map_err(|number| {
            let refused = refused(&self.book, number);
            format!("{refused}; please report it")
        })?;
        let (length, width) = (table.len(), 1 + results_length(self.types));
        let rows = table.chunks(width).map(|row| read_row(self.types, row));
        let rows: Option<Vec<Outcome>> = rows.collect();
        let whole = rows.filter(|_| length == width << chosen.len());
        whole.ok_or_else(|| format!("wrote {length} bytes that are no table; please report it"))
    }
}

/// A byte of outcome and the results.
fn read_row(types: &[Type], row: &[u8]) -> Option<Outcome> {
    let (outcome, results) = row.split_first()?;
    match outcome {
        0 => {
            let mut values = vec![None; types.len()];
            read_inputs(types, results, &mut values).ok()?;
            let values: Option<Vec<Value>> = values.into_iter().collect();
            values.map(Ok)
        }
        1 => Some(Err(Failure::Empty)),
        2 => Some(Err(Failure::Conflict)),
        3 => Some(Err(Failure::Above)),
        4 => Some(Err(Failure::Below)),
        _ => None,
    }
}
