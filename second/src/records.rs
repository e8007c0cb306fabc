//! Input and result records: kind 1 (variable, 0 or 1), kind 2 (variable, 4 bytes).

use crate::refusal::Refusal;
use crate::value::{number, yes_no, Type, Value};

/// Reads an input list into the slots of a scope's variables.
/// Every fault of a list is 14: a record truncated, of unknown kind, with an invalid
/// value, for an unknown variable, of the wrong type, or repeated.
pub fn read_inputs(
    types: &[Type],
    mut inputs: &[u8],
    slots: &mut [Option<Value>],
) -> Result<(), Refusal> {
    while !inputs.is_empty() {
        let (variable, value, rest) = input(inputs).ok_or(Refusal::BadInput)?;
        let known = types.get(variable) == Some(&value.kind());
        if !known || slots[variable].replace(value).is_some() {
            return Err(Refusal::BadInput);
        }
        inputs = rest;
    }
    Ok(())
}

/// The first record of a list and the bytes after it.
fn input(bytes: &[u8]) -> Option<(usize, Value, &[u8])> {
    let (&[kind, variable], body) = bytes.split_first_chunk()?;
    let (value, rest) = match kind {
        1 => {
            let (&byte, rest) = body.split_first()?;
            (Value::YesNo(yes_no(byte)?), rest)
        }
        2 => {
            let (bytes, rest) = body.split_at_checked(4)?;
            (Value::Number(number(bytes)), rest)
        }
        _ => return None,
    };
    Some((usize::from(variable), value, rest))
}

/// "The result's length is known before the run: 3 bytes a yes/no, 6 a number."
pub fn results_length(types: &[Type]) -> usize {
    let length = |of: &Type| match of {
        Type::YesNo => 3,
        Type::Number => 6,
    };
    types.iter().map(length).sum()
}

/// Refusals 14 and 15, in this order; hands back the length of the results.
pub fn prepare(
    types: &[Type],
    inputs: &[u8],
    room: usize,
    slots: &mut [Option<Value>],
) -> Result<usize, Refusal> {
    read_inputs(types, inputs, slots)?;
    let length = results_length(types);
    if length > room {
        return Err(Refusal::BufferTooSmall);
    }
    Ok(length)
}

/// Writes "all variables of the scope in number order" from the first byte on.
pub fn write_results(values: &[Option<Value>], results: &mut [u8]) {
    let mut position = 0;
    for (variable, value) in (0u8..).zip(values.iter().flatten()) {
        let end = match *value {
            Value::YesNo(yes) => {
                let record = [1, variable, u8::from(yes)];
                results[position..position + 3].copy_from_slice(&record);
                position + 3
            }
            Value::Number(n) => {
                results[position..position + 2].copy_from_slice(&[2, variable]);
                results[position + 2..position + 6].copy_from_slice(&n.to_be_bytes());
                position + 6
            }
        };
        position = end;
    }
}
