//! What the rows of a table are about: choices of some variables of a scope.

use crate::choices::{inputs_of, Choices};
use crate::inputs::{read_inputs, variable_named, Given};
use crate::rulebook::Rulebook;
use second::value::{Type, Value};

/// No more variables than this take both values, by name.
pub const MOST: usize = 12;

/// What is given in all rows, the variables that vary, and what each row gives.
pub struct Cases {
    pub fixed: Given,
    pub varied: Vec<usize>,
    pub rows: Vec<Given>,
}

impl Cases {
    /// Names vary, `name=value` is given in every row. Without names every yes/no input
    /// that is not given varies.
    pub fn named(book: &Rulebook, scope: usize, words: &[&str]) -> Result<Cases, String> {
        let (inputs, names): (Vec<&str>, Vec<&str>) = words.iter().partition(|w| w.contains('='));
        let fixed = read_inputs(book, scope, &inputs)?;
        let varied = match names.is_empty() {
            true => open_inputs(book, scope, &fixed),
            false => named(book, scope, &fixed, &names)?,
        };
        if varied.len() > MOST {
            let count = varied.len();
            return Err(format!(
                "{count} variables vary, and {MOST} are the most: give the others, or name those to vary"
            ));
        }
        Ok(Cases::varying(fixed, varied))
    }

    /// Every choice of no and yes for some variables: the first changes slowest, no before
    /// yes.
    pub fn varying(fixed: Given, varied: Vec<usize>) -> Cases {
        let row = |choice: usize| {
            let mut given = fixed.clone();
            for (bit, &variable) in varied.iter().rev().enumerate() {
                given[variable] = Some(Value::YesNo(choice >> bit & 1 == 1));
            }
            given
        };
        Cases {
            rows: (0..1 << varied.len()).map(row).collect(),
            fixed,
            varied,
        }
    }

    /// All choices of a scope's inputs.
    pub fn of_choices(book: &Rulebook, scope: usize, choices: &Choices) -> Cases {
        Cases {
            fixed: vec![None; book.scopes[scope].variables.len()],
            varied: choices.inputs.clone(),
            rows: (0..choices.count).map(|c| choices.given(c)).collect(),
        }
    }
}

/// The yes/no inputs of a scope that are not given.
fn open_inputs(book: &Rulebook, scope: usize, fixed: &Given) -> Vec<usize> {
    let yes_no = |&v: &usize| book.scopes[scope].variables[v] == Type::YesNo;
    let open = |v: &usize| yes_no(v) && fixed[*v].is_none();
    inputs_of(&book.scopes[scope])
        .into_iter()
        .filter(open)
        .collect()
}

fn named(
    book: &Rulebook,
    scope: usize,
    fixed: &Given,
    names: &[&str],
) -> Result<Vec<usize>, String> {
    let mut varied = Vec::new();
    for name in names {
        let variable = variable_named(book, scope, name)?;
        if book.scopes[scope].variables[variable] == Type::Number {
            return Err(format!(
                "'{name}' is a number: give it a value, as in {name}=1"
            ));
        }
        if varied.contains(&variable) || fixed[variable].is_some() {
            return Err(format!("'{name}' is named twice"));
        }
        varied.push(variable);
    }
    Ok(varied)
}
