//! The engine from Rust: what the firmware of a device does with a book that it has never seen. The declarations are those of
//! include/engine.h; a safe function stands in front of each that is used.
//!
//!     rustc -O --edition 2021 -L native=target/staticlib -l static=capi -o target/examples/sealed examples/sealed/sealed.rs

/// Bytes that the results of a scope have at most.
const RESULTS: usize = 192;

mod engine {
    extern "C" {
        fn engine_judge(book: *const u8, length: usize) -> u64;
        fn engine_evaluate(
            book: *const u8,
            book_length: usize,
            scope: usize,
            inputs: *const u8,
            inputs_length: usize,
            results: *mut u8,
            results_length: usize,
        ) -> u64;
    }

    /// How an evaluation ends that is not refused: the length of the results where it ends in values.
    #[derive(Debug)]
    pub enum Outcome {
        Values(usize),
        Empty,
        Conflict,
        Above,
        Below,
    }

    /// The number of scopes, or the refusal.
    pub fn judge(book: &[u8]) -> Result<u64, u8> {
        let answer = unsafe { engine_judge(book.as_ptr(), book.len()) };
        unrefused(answer)
    }

    /// The outcome, or the refusal. The results are written where there are values.
    pub fn evaluate(book: &[u8], scope: usize, inputs: &[u8], results: &mut [u8]) -> Result<Outcome, u8> {
        let answer = unsafe {
            engine_evaluate(
                book.as_ptr(),
                book.len(),
                scope,
                inputs.as_ptr(),
                inputs.len(),
                results.as_mut_ptr(),
                results.len(),
            )
        };
        let answer = unrefused(answer)?;
        Ok(match answer >> 48 {
            0 => Outcome::Values((answer & 0xffff_ffff) as usize),
            1 => Outcome::Empty,
            2 => Outcome::Conflict,
            3 => Outcome::Above,
            _ => Outcome::Below,
        })
    }

    /// What stands below the refusal, or the refusal.
    fn unrefused(answer: u64) -> Result<u64, u8> {
        match (answer >> 56) as u8 {
            0 => Ok(answer),
            refusal => Err(refusal),
        }
    }
}

/// The specification's example: a scanning speed, variable 0, halved for a shrunken print, variable 1.
const BOOK: &[u8] = &[
    0x01, 0x02, 0x02, 0x02, 0x01, 0x05, 0x00, 0x45, 0x93, 0xC0, 0x06, 0x01, 0x05, 0x00, 0x22, 0xC9, 0xE0, 0x13, 0xFF, 0x00, 0xFF,
    0xFF, 0x00, 0x13, 0xFF, 0x00, 0x00, 0x01, 0x02,
];

/// Each variable of the results by its number.
fn show(mut results: &[u8]) {
    loop {
        results = match results {
            [1, variable, yes, rest @ ..] => {
                println!("variable {variable}: {}", if *yes == 1 { "yes" } else { "no" });
                rest
            }
            [2, variable, a, b, c, d, rest @ ..] => {
                println!("variable {variable}: {}", i32::from_be_bytes([*a, *b, *c, *d]));
                rest
            }
            _ => return,
        };
    }
}

fn main() {
    println!("scopes: {:?}", engine::judge(BOOK));
    for inputs in [&[1, 1, 1][..], &[1, 1, 0], &[], &[1, 7, 1]] {
        let mut results = [0; RESULTS];
        match engine::evaluate(BOOK, 0, inputs, &mut results) {
            Ok(engine::Outcome::Values(length)) => show(&results[..length]),
            Ok(outcome) => println!("no values: {outcome:?}"),
            Err(refusal) => println!("refused {refusal}"),
        }
    }
}
