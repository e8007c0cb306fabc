//! Runs the program as a user does, with stand-ins for the proved programs.

#![allow(dead_code)]

use std::io::Write;
use std::path::PathBuf;
use std::process::{Command, Output, Stdio};

/// What came of a command.
#[derive(Debug)]
pub struct Ran {
    pub status: i32,
    pub out: String,
    pub err: String,
    pub bytes: Vec<u8>,
}

/// The folder of the stand-ins, which `cargo test` builds.
pub fn stand_ins() -> PathBuf {
    let program = PathBuf::from(env!("CARGO_BIN_EXE_text"));
    program.with_file_name("examples")
}

pub fn command() -> Command {
    let mut command = Command::new(env!("CARGO_BIN_EXE_text"));
    command
        .current_dir(folder())
        .env("RULE_PROGRAMS", stand_ins());
    command
}

fn ran(output: Output) -> Ran {
    Ran {
        status: output.status.code().expect("no signal"),
        out: String::from_utf8_lossy(&output.stdout).into_owned(),
        err: String::from_utf8_lossy(&output.stderr).into_owned(),
        bytes: output.stdout,
    }
}

/// Runs `text` with words separated by spaces.
pub fn text(words: &str) -> Ran {
    let output = command().args(words.split_whitespace()).output();
    ran(output.expect("the program runs"))
}

/// The same, with something on standard input.
pub fn text_reading(words: &str, input: &[u8]) -> Ran {
    let mut child = command()
        .args(words.split_whitespace())
        .stdin(Stdio::piped())
        .stdout(Stdio::piped())
        .stderr(Stdio::piped())
        .spawn()
        .expect("the program runs");
    let mut stdin = child.stdin.take().expect("standard input");
    let _ = stdin.write_all(input);
    drop(stdin);
    ran(child.wait_with_output().expect("the program ends"))
}

/// A folder for the files of tests.
pub fn folder() -> PathBuf {
    let folder = PathBuf::from(env!("CARGO_TARGET_TMPDIR"));
    std::fs::create_dir_all(&folder).expect("a folder");
    folder
}

/// Writes a file for a test.
pub fn file(name: &str, text: impl AsRef<[u8]>) {
    std::fs::write(folder().join(name), text).expect("a file");
}

/// The path of a file of the project.
pub fn project(path: &str) -> String {
    format!("{}/../{path}", env!("CARGO_MANIFEST_DIR"))
}

/// The tour's rule: two exceptions to one definition.
pub const SPEED: &str = "scope film
  variable speed : number
  variable shrunken : yes/no
  variable nitrate : yes/no

  label general
  define speed as 4_559_808

  label gentle
  exception to general
  define speed under condition shrunken as 2_279_904

  label safe
  exception to general
  define speed under condition nitrate as 3_419_856
";
