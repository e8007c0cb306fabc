//! Places in a text, and what is wrong there.

use std::fmt;

/// Line and column of a character, both from 1.
#[derive(Clone, Copy, Debug, Default, PartialEq, Eq, PartialOrd, Ord)]
pub struct Place {
    pub line: usize,
    pub column: usize,
}

impl fmt::Display for Place {
    fn fmt(&self, f: &mut fmt::Formatter) -> fmt::Result {
        write!(f, "{}:{}", self.line, self.column)
    }
}

/// Something wrong, at a place where one can be named.
#[derive(Clone, Debug, PartialEq, Eq)]
pub struct Fault {
    pub place: Option<Place>,
    pub message: String,
}

impl Fault {
    pub fn at(place: Place, message: impl Into<String>) -> Fault {
        Fault {
            place: Some(place),
            message: message.into(),
        }
    }

    pub fn somewhere(message: impl Into<String>) -> Fault {
        Fault {
            place: None,
            message: message.into(),
        }
    }

    /// `file:line:column: what is wrong`.
    pub fn in_file(&self, file: &str) -> String {
        match self.place {
            Some(place) => format!("{file}:{place}: {}", self.message),
            None => format!("{file}: {}", self.message),
        }
    }
}

pub type Checked<T> = Result<T, Fault>;

/// All faults that a stage found; a text with faults goes no further.
#[derive(Debug, Default)]
pub struct Faults(pub Vec<Fault>);

impl Faults {
    pub fn add(&mut self, place: Place, message: impl Into<String>) {
        self.0.push(Fault::at(place, message));
    }

    /// The faults in the order of the text, or that there are none.
    pub fn settled(mut self) -> Result<(), Vec<Fault>> {
        self.0.sort_by_key(|fault| fault.place);
        if self.0.is_empty() {
            Ok(())
        } else {
            Err(self.0)
        }
    }
}
