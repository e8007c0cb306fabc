//! The proved engine, through its exported functions. Nothing checks these
//! declarations against its source: they are few and plain.

use second::{Answer, Outcome};

type Judge = unsafe extern "C" fn(*const u8, usize) -> u64;
type Compile = unsafe extern "C" fn(*const u8, usize, *mut u8, usize) -> u64;
/// A service that evaluates a scope of a book, or runs one of code: both take the same and answer alike.
type Service =
    unsafe extern "C" fn(*const u8, usize, usize, *const u8, usize, *mut u8, usize) -> u64;
type Tabulate = unsafe extern "C" fn(
    *const u8,
    usize,
    usize,
    *const u8,
    usize,
    *const u8,
    usize,
    *mut u8,
    usize,
) -> u64;

/// The exported functions of a library.
pub struct Engine {
    judge: Judge,
    evaluate: Service,
    compile: Compile,
    run: Service,
    tabulate: Tabulate,
}

/// The functions of the library whose names begin so.
macro_rules! linked {
    ($name:literal) => {{
        extern "C" {
            #[link_name = concat!($name, "_judge")]
            fn judge(book: *const u8, length: usize) -> u64;
            #[link_name = concat!($name, "_evaluate")]
            fn evaluate(
                book: *const u8,
                book_length: usize,
                scope: usize,
                inputs: *const u8,
                inputs_length: usize,
                results: *mut u8,
                results_length: usize,
            ) -> u64;
            #[link_name = concat!($name, "_compile")]
            fn compile(
                book: *const u8,
                book_length: usize,
                code: *mut u8,
                code_length: usize,
            ) -> u64;
            #[link_name = concat!($name, "_run")]
            fn run(
                code: *const u8,
                code_length: usize,
                scope: usize,
                inputs: *const u8,
                inputs_length: usize,
                results: *mut u8,
                results_length: usize,
            ) -> u64;
            #[link_name = concat!($name, "_tabulate")]
            fn tabulate(
                book: *const u8,
                book_length: usize,
                scope: usize,
                chosen: *const u8,
                chosen_length: usize,
                inputs: *const u8,
                inputs_length: usize,
                table: *mut u8,
                table_length: usize,
            ) -> u64;
        }
        Engine {
            judge,
            evaluate,
            compile,
            run,
            tabulate,
        }
    }};
}

/// The library that the gate compares.
static ENGINE: Engine = linked!("engine");

/// How many copies there are of a library, each elsewhere in the program (`build.rs`): where
/// code lies moves its time, so the benchmark times them all.
pub const COPIES: usize = 4;

/// The copies of the library.
pub static PLACED: [Engine; COPIES] = [
    linked!("engine_0"),
    linked!("engine_1"),
    linked!("engine_2"),
    linked!("engine_3"),
];

/// The copies of a former library, where the build was given one.
#[cfg(former)]
pub static FORMER: Option<[Engine; COPIES]> = Some([
    linked!("former_0"),
    linked!("former_1"),
    linked!("former_2"),
    linked!("former_3"),
]);
#[cfg(not(former))]
pub static FORMER: Option<[Engine; COPIES]> = None;

const REFUSAL: u32 = 56;
const OUTCOME: u32 = 48;
const COUNT: u32 = 32;

/// What is left of a packed answer, or the refusal in its highest byte.
fn unpack(packed: u64) -> Result<u64, u8> {
    match (packed >> REFUSAL) as u8 {
        0 => Ok(packed),
        refusal => Err(refusal),
    }
}

fn answer(packed: u64) -> Answer {
    Answer {
        outcome: match (packed >> OUTCOME) as u8 {
            0 => Outcome::Values,
            1 => Outcome::Empty,
            2 => Outcome::Conflict,
            3 => Outcome::Above,
            4 => Outcome::Below,
            other => panic!("no outcome has the number {other}"),
        },
        count: (packed >> COUNT & 0xffff) as usize,
        length: (packed & 0xffff_ffff) as usize,
    }
}

fn reply(
    service: Service,
    bytes: &[u8],
    scope: usize,
    inputs: &[u8],
    results: &mut [u8],
) -> Result<Answer, u8> {
    let packed = unsafe {
        service(
            bytes.as_ptr(),
            bytes.len(),
            scope,
            inputs.as_ptr(),
            inputs.len(),
            results.as_mut_ptr(),
            results.len(),
        )
    };
    unpack(packed).map(answer)
}

impl Engine {
    /// Where judging begins behind a multiple of 64.
    #[cfg(test)]
    pub fn place(&self) -> usize {
        self.judge as usize % 64
    }

    /// Number of scopes, or the refusal.
    pub fn judge(&self, book: &[u8]) -> Result<usize, u8> {
        let packed = unsafe { (self.judge)(book.as_ptr(), book.len()) };
        unpack(packed).map(|scopes| scopes as usize)
    }

    /// Outcome, count and length, or the refusal; the results are written to the memory lent.
    pub fn evaluate(
        &self,
        book: &[u8],
        scope: usize,
        inputs: &[u8],
        results: &mut [u8],
    ) -> Result<Answer, u8> {
        reply(self.evaluate, book, scope, inputs, results)
    }

    /// Outcome, count and length, or the refusal; the results are written to the memory lent.
    pub fn run(
        &self,
        code: &[u8],
        scope: usize,
        inputs: &[u8],
        results: &mut [u8],
    ) -> Result<Answer, u8> {
        reply(self.run, code, scope, inputs, results)
    }

    /// Length of the code written to the memory lent, or the refusal.
    pub fn compile(&self, book: &[u8], code: &mut [u8]) -> Result<usize, u8> {
        let (from, to) = (book.as_ptr(), code.as_mut_ptr());
        let packed = unsafe { (self.compile)(from, book.len(), to, code.len()) };
        unpack(packed).map(|length| length as usize)
    }

    /// Length of the table written to the memory lent, or the refusal.
    pub fn tabulate(
        &self,
        book: &[u8],
        scope: usize,
        chosen: &[u8],
        inputs: &[u8],
        table: &mut [u8],
    ) -> Result<usize, u8> {
        let packed = unsafe {
            (self.tabulate)(
                book.as_ptr(),
                book.len(),
                scope,
                chosen.as_ptr(),
                chosen.len(),
                inputs.as_ptr(),
                inputs.len(),
                table.as_mut_ptr(),
                table.len(),
            )
        };
        unpack(packed).map(|length| length as usize)
    }
}

/// The same of the library that the gate compares.
pub fn judge(book: &[u8]) -> Result<usize, u8> {
    ENGINE.judge(book)
}

pub fn evaluate(
    book: &[u8],
    scope: usize,
    inputs: &[u8],
    results: &mut [u8],
) -> Result<Answer, u8> {
    ENGINE.evaluate(book, scope, inputs, results)
}

pub fn run(code: &[u8], scope: usize, inputs: &[u8], results: &mut [u8]) -> Result<Answer, u8> {
    ENGINE.run(code, scope, inputs, results)
}

pub fn compile(book: &[u8], code: &mut [u8]) -> Result<usize, u8> {
    ENGINE.compile(book, code)
}

pub fn tabulate(
    book: &[u8],
    scope: usize,
    chosen: &[u8],
    inputs: &[u8],
    table: &mut [u8],
) -> Result<usize, u8> {
    ENGINE.tabulate(book, scope, chosen, inputs, table)
}
