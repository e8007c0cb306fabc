//! Tabulating a scope: evaluation's answer for every assignment of no and yes to some
//! of its variables, with a fixed input list for the rest.

use crate::answer::Outcome;
use crate::book::Book;
use crate::evaluate::{Evaluation, Observer};
use crate::overriding::Overriding;
use crate::records::{read_inputs, results_length, write_results};
use crate::refusal::Refusal;
use crate::value::{Failure, Type, Value};

/// "List every choice of no and yes for at most 12 chosen yes/no variables of a scope".
pub const MAX_CHOSEN: usize = 12;

/// Tabulates a scope: refusals 1 to 14, 18, 15, or the length of the table written.
pub fn tabulate(
    book: &[u8],
    scope: usize,
    chosen: &[u8],
    inputs: &[u8],
    table: &mut [u8],
) -> Result<usize, u8> {
    observed_tabulate(
        Overriding::FallsBack,
        book,
        scope,
        (chosen, inputs),
        table,
        &(),
    )
}

/// Tabulates under a meaning of empty overrides, every row told to an observer.
pub fn observed_tabulate(
    overriding: Overriding,
    book: &[u8],
    scope: usize,
    (chosen, inputs): (&[u8], &[u8]),
    table: &mut [u8],
    observer: &impl Observer,
) -> Result<usize, u8> {
    let book = Book::accept(book)?;
    let asked = book.scopes.get(scope).ok_or(Refusal::NoSuchScope)?;
    let mut fixed = vec![None; asked.variables.len()];
    read_inputs(&asked.variables, inputs, &mut fixed)?;
    let chosen = in_order(chosen, &asked.variables, &fixed)?;
    let row_length = 1 + results_length(&asked.variables);
    let length = row_length << chosen.len();
    let table = table.get_mut(..length).ok_or(Refusal::BufferTooSmall)?;
    let mut run = Evaluation::new(overriding, &book, Vec::new(), observer);
    for (number, row) in table.chunks_exact_mut(row_length).enumerate() {
        run.slots.clear();
        run.slots.extend_from_slice(&fixed);
        assign(&chosen, number, &mut run.slots);
        let ended = run.enter(scope, 0, 1);
        write_row(ended, &run.slots, row);
    }
    Ok(length)
}

/// The chosen variables by number. "Turned away: 18, more than 12 chosen, one chosen
/// twice, absent, not yes/no, or in the fixed list".
fn in_order(chosen: &[u8], types: &[Type], fixed: &[Option<Value>]) -> Result<Vec<usize>, Refusal> {
    if chosen.len() > MAX_CHOSEN {
        return Err(Refusal::BadChoice);
    }
    let mut chosen: Vec<usize> = chosen.iter().map(|&v| usize::from(v)).collect();
    chosen.sort_unstable();
    let twice = chosen.windows(2).any(|pair| pair[0] == pair[1]);
    let free = |&v: &usize| types.get(v) == Some(&Type::YesNo) && fixed[v].is_none();
    if twice || !chosen.iter().all(free) {
        return Err(Refusal::BadChoice);
    }
    Ok(chosen)
}

/// The assignment of a row's number. "The lowest-numbered chosen variable changes
/// slowest, and no comes before yes."
fn assign(chosen: &[usize], number: usize, slots: &mut [Option<Value>]) {
    for (bit, &variable) in chosen.iter().rev().enumerate() {
        slots[variable] = Some(Value::YesNo(number >> bit & 1 == 1));
    }
}

/// "Each line holds one byte of outcome (0 values, 1 empty, 2 conflict" and, since
/// request 3, "byte 3 is above and 4 below") "and the results, or as many zero bytes where
/// there are no values."
fn write_row(ended: Result<(), Failure>, slots: &[Option<Value>], row: &mut [u8]) {
    let (first, results) = row.split_at_mut(1);
    let outcome = match ended {
        Ok(()) => {
            write_results(slots, results);
            Outcome::Values
        }
        Err(failure) => {
            results.fill(0);
            failure.into()
        }
    };
    first[0] = outcome as u8;
}
