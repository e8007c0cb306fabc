//! The table by its definition: "Every choice is there once, with evaluation's answer."
//! Each row is an evaluation of its own, on the fixed list with a record for each chosen
//! variable behind it.

use super::parse;
use crate::answer::Outcome;
use crate::evaluate;

/// Lists of records: each with no before each with yes, the first variable slowest.
fn assignments(chosen: &[u8]) -> Vec<Vec<u8>> {
    let Some((&first, others)) = chosen.split_first() else {
        return vec![Vec::new()];
    };
    let rest = assignments(others);
    let with = |yes: u8| {
        rest.iter()
            .map(move |list| [&[1, first, yes], &list[..]].concat())
    };
    with(0).chain(with(1)).collect()
}

/// The variables that a good list gives.
fn given(mut list: &[u8]) -> Vec<u8> {
    let mut variables = Vec::new();
    while let [kind, variable, rest @ ..] = list {
        variables.push(*variable);
        list = &rest[if *kind == 1 { 1 } else { 4 }..];
    }
    variables
}

/// "18, more than 12 chosen, one chosen twice, absent, not yes/no, or in the fixed list".
fn is_bad(chosen: &[u8], types: &[u8], fixed: &[u8]) -> bool {
    let times = |v: u8| chosen.iter().filter(|&&other| other == v).count();
    let bad = |&v: &u8| {
        let absent = usize::from(v) >= types.len();
        absent || types[usize::from(v)] != 1 || times(v) > 1 || given(fixed).contains(&v)
    };
    chosen.len() > 12 || chosen.iter().any(bad)
}

/// The table, or the refusal, where so much memory is lent.
pub fn table(
    book: &[u8],
    scope: usize,
    (chosen, fixed): (&[u8], &[u8]),
    room: usize,
) -> Result<Vec<u8>, u8> {
    let mut results = [0; 192];
    evaluate(book, scope, fixed, &mut results)?;
    let scopes = parse(book).ok_or(0)?;
    let types = &scopes[scope].variables;
    if is_bad(chosen, types, fixed) {
        return Err(18);
    }
    let length = types.iter().map(|&of| if of == 1 { 3 } else { 6 }).sum();
    let mut chosen = chosen.to_vec();
    chosen.sort();
    let mut table = Vec::new();
    for records in assignments(&chosen) {
        let list = [fixed, &records].concat();
        let answer = evaluate(book, scope, &list, &mut results)?;
        table.push(answer.outcome as u8);
        match answer.outcome {
            Outcome::Values => table.extend(&results[..length]),
            _ => table.resize(table.len() + length, 0),
        }
    }
    if table.len() > room {
        return Err(15);
    }
    Ok(table)
}
