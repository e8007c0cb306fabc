//! Runs the command that was typed, and writes what it answers.

use std::io::Write;
use std::process::ExitCode;
use text::commands::{answer, Typed};
use text::output::{write_file, write_out, Stop};

fn main() -> ExitCode {
    let words: Vec<String> = std::env::args_os()
        .skip(1)
        .map(|word| word.to_string_lossy().into_owned())
        .collect();
    let words: Vec<&str> = words.iter().map(String::as_str).collect();
    let (message, status) = match run(&words) {
        Ok(true) => return ExitCode::SUCCESS,
        Ok(false) => return ExitCode::from(1),
        Err(Stop::Failed(message)) => (message, 1),
        Err(Stop::Usage(message)) => (message, 2),
    };
    // Where this cannot be written either, the status says that something is wrong.
    let _ = writeln!(std::io::stderr(), "{message}");
    ExitCode::from(status)
}

/// Whether the answer is the one hoped for.
fn run(words: &[&str]) -> Result<bool, Stop> {
    let typed = Typed::of(words)?;
    typed.keeps_what_it_reads()?;
    let answer = answer(&typed)?;
    match typed.out {
        Some(file) if answer.good => write_file(file, &answer.bytes)?,
        _ => write_out(&answer.bytes)?,
    }
    Ok(answer.good)
}
