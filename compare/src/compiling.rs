//! Compiling: the engine's answer and memory and the second program's, on fixed and on
//! generated cases of every service, whose bytes are taken as a book: into memory that
//! the code fits exactly, that is longer, and that is too short by one.

use crate::engine;
use crate::overriding;
use crate::tally::{Done, Tally};
use second::cases::{lend, Case};

fn shown(answer: Result<usize, u8>) -> String {
    match answer {
        Ok(_) => "written".to_string(),
        Err(refusal) => format!("refused {refusal}"),
    }
}

type Compile = fn(&[u8], &mut [u8]) -> Result<usize, u8>;

fn done(compile: Compile, book: &[u8], room: usize) -> Done<Result<usize, u8>> {
    let mut memory = lend(room);
    let answer = compile(book, &mut memory);
    Done { answer, memory }
}

fn compare(tally: &mut Tally, book: &[u8], room: usize, label: &str) {
    let ours = done(engine::compile, book, room);
    let theirs = done(second::compile, book, room);
    let on = || format!("{label}, {room} bytes lent: {book:02x?}");
    tally.agree(&shown(theirs.answer), (&ours, &theirs), on);
}

/// The three memories of one book; a refused book gets one of some length.
fn compare_all(tally: &mut Tally, book: &[u8], label: &str) {
    match second::code_of(book) {
        Ok(code) => {
            overriding::note_compiled(tally, book);
            compare(tally, book, code.len(), label);
            compare(tally, book, code.len() + 7, label);
            if let Some(short) = code.len().checked_sub(1) {
                compare(tally, book, short, label);
            }
        }
        Err(_) => compare(tally, book, 64, label),
    }
}

/// All fixed cases and `random` generated ones; each answer must be met, and override trees
/// that can be empty and that cannot.
pub fn run(random: u64) -> bool {
    let each = |tally: &mut Tally, case: &Case, label: &str| compare_all(tally, &case.bytes, label);
    let mut tally = Tally::of_cases(random, each);
    tally.expect_met("written");
    for refusal in (1..=12).chain([15]) {
        tally.expect_met(&format!("refused {refusal}"));
    }
    overriding::expect_compiled(&mut tally);
    tally.finish()
}
