//! What a command says, and writing it: all of it or an error.

use std::io::Write;
use std::path::Path;

/// What goes to standard output, and whether it is what was hoped for: accepted, values,
/// all passed, no warning.
#[derive(Debug, PartialEq, Eq)]
pub struct Answer {
    pub bytes: Vec<u8>,
    pub good: bool,
}

impl Answer {
    pub fn good(bytes: impl Into<Vec<u8>>) -> Answer {
        Answer {
            bytes: bytes.into(),
            good: true,
        }
    }

    pub fn bad(bytes: impl Into<Vec<u8>>) -> Answer {
        Answer {
            bytes: bytes.into(),
            good: false,
        }
    }
}

/// Why there is no answer: the command was typed wrongly, or something is wrong with what
/// it names.
#[derive(Debug, PartialEq, Eq)]
pub enum Stop {
    Usage(String),
    Failed(String),
}

impl From<String> for Stop {
    fn from(message: String) -> Stop {
        Stop::Failed(message)
    }
}

pub type Answered = Result<Answer, Stop>;

/// Writes to standard output; a disk that is full is an error.
pub fn write_out(bytes: &[u8]) -> Result<(), String> {
    let mut out = std::io::stdout().lock();
    let written = out.write_all(bytes).and_then(|()| out.flush());
    written.map_err(|error| format!("standard output: {error}"))
}

/// Writes a file as a whole: until everything is written, the file is as it was.
pub fn write_file(file: &str, bytes: &[u8]) -> Result<(), String> {
    let failed = |error: std::io::Error| format!("{file}: {error}");
    let path = Path::new(file);
    if path.exists() && !path.is_file() {
        // A device or a pipe is written as it is.
        return std::fs::write(path, bytes).map_err(failed);
    }
    let beside = format!("{file}.{}.part", std::process::id());
    let written = write_synced(&beside, bytes).and_then(|()| std::fs::rename(&beside, path));
    if written.is_err() {
        let _ = std::fs::remove_file(&beside);
    }
    written.map_err(failed)
}

fn write_synced(file: &str, bytes: &[u8]) -> std::io::Result<()> {
    let mut out = std::fs::File::create(file)?;
    out.write_all(bytes)?;
    out.sync_all()
}
