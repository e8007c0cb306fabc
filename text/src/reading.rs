//! Text to book: parsing, names, types, numbers of nodes, and the faults of the judge.

use crate::cycles::check_cycles;
use crate::names::resolve;
use crate::numbering::number_nodes;
use crate::parser::parse;
use crate::place::Fault;
use crate::records::record_bytes;
use crate::rulebook::Rulebook;
use crate::syntax::{File, Scope};
use crate::typing::{check_mixed, check_types};
use crate::words::refusal;
use crate::writer::{book_bytes, scope_bytes};
use second::decode::MAX_BOOK;

/// The book that a text describes. A text of plain records is only asked for sound
/// records; a text in the language always gives an accepted book.
pub fn to_book(text: &str) -> Result<Vec<u8>, Vec<Fault>> {
    match parse(text).map_err(|fault| vec![fault])? {
        File::Records(records) => record_bytes(&records).map_err(|fault| vec![fault]),
        File::Scopes(scopes) => Ok(book_bytes(&rulebook_of(&scopes)?.scopes)),
    }
}

/// The book with its names and places; plain records have none.
pub fn to_rulebook(text: &str) -> Result<Rulebook, Vec<Fault>> {
    match parse(text).map_err(|fault| vec![fault])? {
        File::Scopes(scopes) => rulebook_of(&scopes),
        File::Records(_) => {
            let message = "a text of plain records has no names";
            Err(vec![Fault::somewhere(message)])
        }
    }
}

fn rulebook_of(scopes: &[Scope]) -> Result<Rulebook, Vec<Fault>> {
    let mut resolved = resolve(scopes)?;
    check_types(&mut resolved)?;
    check_mixed(&resolved)?;
    let mut book = Rulebook::default();
    for (resolved, scope) in resolved.into_iter().zip(scopes) {
        let (scope, names) = number_nodes(resolved, &scope.nodes)?;
        book.scopes.push(scope);
        book.names.push(names);
    }
    check_length(&book)?;
    check_cycles(&book)?;
    judged(&book)?;
    Ok(book)
}

/// "32,768 bytes may pass".
fn check_length(book: &Rulebook) -> Result<(), Vec<Fault>> {
    let mut length = 0;
    for (scope, names) in book.scopes.iter().zip(&book.names) {
        length += scope_bytes(scope).len();
        if length > MAX_BOOK {
            let message = format!("with this scope the book is longer than {MAX_BOOK} bytes");
            return Err(vec![Fault::at(names.scope.place, message)]);
        }
    }
    Ok(())
}

/// The judge's own word; all of its faults were looked for before.
fn judged(book: &Rulebook) -> Result<(), Vec<Fault>> {
    match second::judge(&book_bytes(&book.scopes)) {
        Ok(_) => Ok(()),
        Err(number) => {
            let message = format!("the judge refuses the book: {}", refusal(number));
            Err(vec![Fault::somewhere(message)])
        }
    }
}
