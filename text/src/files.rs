//! Files to read: texts, or books as bytes; `-` is standard input. Every fault stands under
//! the file's name.

use crate::answers::refused;
use crate::place::{Checked, Fault, Place};
use crate::printer::to_text;
use crate::reading::{to_book, to_rulebook};
use crate::rulebook::Rulebook;
use std::io::{ErrorKind, Read};
use std::path::{Path, PathBuf};

/// More bytes than any text of a book needs.
const MAX_FILE: u64 = 1 << 24;

/// What was read, and what it is called in messages.
pub struct Source {
    pub name: String,
    bytes: Vec<u8>,
}

impl Source {
    /// Reads a file, or standard input for `-`.
    pub fn read(file: &str) -> Result<Source, String> {
        let name = match file {
            "-" => "standard input",
            file => file,
        };
        let bytes = match file {
            "-" => limited(std::io::stdin().lock()),
            file => std::fs::File::open(file).and_then(limited),
        };
        let bytes = bytes.map_err(|error| format!("{name}: {}", reason(&error)))?;
        if bytes.len() as u64 > MAX_FILE {
            let most = MAX_FILE >> 20;
            return Err(format!("{name}: longer than {most} MiB, and no book is"));
        }
        Ok(Source {
            name: name.to_string(),
            bytes,
        })
    }

    /// Whether these are the bytes of a book: it begins with the kind of a record, and most
    /// have zeros in them; a text does neither.
    pub fn is_book(&self) -> bool {
        let kind = |&byte: &u8| byte < 32 && !b"\t\n\r\x0c".contains(&byte);
        self.bytes.first().is_some_and(kind) || self.bytes.contains(&0)
    }

    pub fn bytes(&self) -> &[u8] {
        &self.bytes
    }

    pub fn text(&self) -> Result<String, String> {
        let text = as_text(self.bytes.clone());
        text.map_err(|fault| fault.in_file(&self.name))
    }

    /// The bytes of the book.
    pub fn book(&self) -> Result<Vec<u8>, String> {
        if self.is_book() {
            return Ok(self.bytes.clone());
        }
        to_book(&self.text()?).map_err(|faults| listed(&self.name, &faults))
    }

    /// The book with its names; one that was read as bytes gets those of its text.
    pub fn rules(&self) -> Result<Rulebook, String> {
        Ok(self.rules_and_text()?.0)
    }

    /// The book with its names, and the text that they stand in.
    pub fn rules_and_text(&self) -> Result<(Rulebook, String), String> {
        let text = match self.is_book() {
            false => self.text()?,
            true => {
                let wrong = |number| format!("{}: {}", self.name, refused(&self.bytes, number));
                second::judge(&self.bytes).map_err(wrong)?;
                to_text(&self.bytes).map_err(|fault| fault.in_file(&self.name))?
            }
        };
        let book = to_rulebook(&text).map_err(|faults| listed(&self.name, &faults))?;
        Ok((book, text))
    }

    /// The names of the scopes of a text; plain records have none.
    pub fn scope_names(&self) -> Result<Vec<String>, String> {
        let names = |book: Rulebook| book.names.into_iter().map(|names| names.scope.text);
        match to_rulebook(&self.text()?) {
            Ok(book) => Ok(names(book).collect()),
            Err(_) => Ok(Vec::new()),
        }
    }
}

fn limited(from: impl Read) -> std::io::Result<Vec<u8>> {
    let mut bytes = Vec::new();
    from.take(MAX_FILE + 1).read_to_end(&mut bytes)?;
    Ok(bytes)
}

/// Why a file cannot be read.
fn reason(error: &std::io::Error) -> String {
    match error.kind() {
        ErrorKind::NotFound => "there is no such file".to_string(),
        ErrorKind::IsADirectory => "this is a folder, not a file".to_string(),
        _ => error.to_string(),
    }
}

/// Bytes as text, or the place of those that are none.
fn as_text(bytes: Vec<u8>) -> Checked<String> {
    String::from_utf8(bytes).map_err(|error| {
        let before = &error.as_bytes()[..error.utf8_error().valid_up_to()];
        let before = String::from_utf8_lossy(before);
        let last = before.rsplit('\n').next().unwrap_or_default();
        let place = Place {
            line: before.matches('\n').count() + 1,
            column: last.chars().count() + 1,
        };
        Fault::at(place, "these bytes are no UTF-8 text")
    })
}

/// The text of a file.
pub fn read_text(path: &Path) -> Result<String, String> {
    Source::read(&path.display().to_string())?.text()
}

/// A text with its names, or all of its faults.
pub fn read_rules(path: &Path) -> Result<Rulebook, String> {
    Source::read(&path.display().to_string())?.rules()
}

/// Faults, one a line.
pub fn listed(file: &str, faults: &[Fault]) -> String {
    let lines: Vec<String> = faults.iter().map(|fault| fault.in_file(file)).collect();
    lines.join("\n")
}

/// The texts of a folder, in the order of their names.
pub fn rule_files(folder: &str) -> Result<Vec<PathBuf>, String> {
    let failed = |error: std::io::Error| format!("{folder}: {error}");
    let mut files = Vec::new();
    for entry in std::fs::read_dir(folder).map_err(failed)? {
        let path = entry.map_err(failed)?.path();
        if path
            .extension()
            .is_some_and(|extension| extension == "rules")
        {
            files.push(path);
        }
    }
    files.sort();
    match files.is_empty() {
        true => Err(format!("{folder}: no file ends in .rules")),
        false => Ok(files),
    }
}

#[cfg(test)]
mod tests {
    use super::*;

    #[test]
    fn books_and_texts_are_told_apart() {
        let is_book = |bytes: &[u8]| {
            let source = Source {
                name: String::new(),
                bytes: bytes.to_vec(),
            };
            source.is_book()
        };
        assert!(is_book(&[1]) && is_book(&[1, 2, 2]) && is_book(&[10, 0]));
        assert!(!is_book(b"") && !is_book(b"scope s") && !is_book(b"\n# \x1b[1m\nscope s"));
    }

    #[test]
    fn bytes_that_are_no_text_have_a_place() {
        assert_eq!(as_text(b"scope a".to_vec()), Ok("scope a".to_string()));
        let fault = as_text(b"scope\n\xc3\xa9 \xff".to_vec()).expect_err("a fault");
        assert_eq!(fault.in_file("f"), "f:2:3: these bytes are no UTF-8 text");
    }
}
