//! Round trips: book to text to book, and printed text to book to text.

use crate::place::Fault;
use crate::printer::{in_language, to_text};
use crate::reading::to_book;
use second::decode::decode;

/// A book with sound records comes back byte for byte, its text letter for letter.
pub fn book_survives(bytes: &[u8]) -> Result<(), String> {
    let text = to_text(bytes).map_err(|fault| fault.message)?;
    let back = to_book(&text).map_err(|faults| first(&faults, &text))?;
    if back != bytes {
        return Err(format!(
            "{bytes:02x?} came back as {back:02x?} from\n{text}"
        ));
    }
    text_survives(&text)
}

/// Text that the printer made comes back letter for letter.
pub fn text_survives(text: &str) -> Result<(), String> {
    let book = to_book(text).map_err(|faults| first(&faults, text))?;
    match to_text(&book) {
        Ok(back) if back == text => Ok(()),
        Ok(back) => Err(format!("{text}\ncame back as\n{back}")),
        Err(fault) => Err(fault.message),
    }
}

fn first(faults: &[Fault], text: &str) -> String {
    let fault = faults.first().map(|fault| fault.in_file("text"));
    format!("{} in\n{text}", fault.unwrap_or_default())
}

/// What the faults of a text say for each refusal from 8 to 12.
const SAID: [(u8, &[&str]); 5] = [
    (8, &[", and this is a ", ", and this one is a number"]),
    (9, &["definitions or rules, not both"]),
    (10, &["a scope calls itself"]),
    (11, &["are the most"]),
    (12, &["a variable depends on itself"]),
];

/// A book with a refusal from 8 to 12, written in the language all the same, has that
/// fault, with a place.
pub fn fault_is_placed(bytes: &[u8], refusal: u8) -> Result<(), String> {
    let scopes = decode(bytes).map_err(|_| "records that are not sound".to_string())?;
    let text = in_language(scopes);
    let Err(faults) = to_book(&text) else {
        return Err(format!("no fault was found in\n{text}"));
    };
    let said = SAID.iter().filter(|&&(number, _)| number == refusal);
    let said: Vec<&str> = said.flat_map(|(_, said)| said.iter().copied()).collect();
    let right = |fault: &Fault| {
        fault.place.is_some() && said.iter().any(|said| fault.message.contains(said))
    };
    let wrong = || format!("not {refusal}: {}", first(&faults, &text));
    faults.iter().all(right).then_some(()).ok_or_else(wrong)
}
