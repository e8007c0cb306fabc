//! A book as plain records, one a line: the form for books that the judge refuses.

use crate::place::{Checked, Fault};
use crate::syntax::Record;
use crate::words::refusal;
use second::decode::decode;
use second::kind::book_shape;
use second::reader::Records;
use std::fmt::Write;

/// The bytes of records, which must be sound: none of faults 1 to 5 in them.
pub fn record_bytes(records: &[Record]) -> Checked<Vec<u8>> {
    records.iter().try_for_each(check_length)?;
    let bytes: Vec<u8> = records.iter().flat_map(|r| r.bytes.clone()).collect();
    match decode(&bytes) {
        Ok(_) => Ok(bytes),
        Err(number) => {
            let message = refusal(number.into());
            Err(Fault::at(records[first_unsound(records)].place, message))
        }
    }
}

/// "The kind alone decides how many bytes follow."
fn check_length(record: &Record) -> Checked<()> {
    let Some((&kind, body)) = record.bytes.split_first() else {
        return Err(Fault::at(record.place, "a record begins with its kind"));
    };
    let Some(shape) = book_shape(kind) else {
        return Err(Fault::at(
            record.place,
            format!("there is no record of kind {kind}"),
        ));
    };
    if body.len() == shape.length {
        return Ok(());
    }
    let (wanted, found) = (shape.length, body.len());
    let message = format!("a record of kind {kind} has a body of {wanted} bytes, not {found}");
    Err(Fault::at(record.place, message))
}

/// The first record with which the book is unsound; all of them together are.
fn first_unsound(records: &[Record]) -> usize {
    let (mut sound, mut unsound) = (0, records.len());
    while sound + 1 < unsound {
        let middle = sound + (unsound - sound) / 2;
        let bytes: Vec<u8> = records[..middle]
            .iter()
            .flat_map(|r| r.bytes.clone())
            .collect();
        match decode(&bytes) {
            Ok(_) => sound = middle,
            Err(_) => unsound = middle,
        }
    }
    unsound - 1
}

/// Prints a book with sound records that the judge refuses.
pub fn print_records(bytes: &[u8], number: u8) -> String {
    let mut text = format!("# The judge refuses this book: {}.\n", refusal(number));
    let mut records = Records::of_book(bytes);
    while let Ok(Some(record)) = records.read() {
        let body: String = record.body.iter().map(|byte| format!(" {byte}")).collect();
        let _ = writeln!(text, "record {}{body}", record.kind);
    }
    text
}
