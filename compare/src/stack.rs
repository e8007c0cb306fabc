//! The stack that a call of the engine takes: what lies below the caller is painted
//! beforehand, and the paint that is gone shows how far down the call went.

use crate::bench::compiled;
use crate::engine;
use second::cases::{deepest, tabulations::HUGE};
use std::thread;

/// Bytes of the stack of a thread that measures.
const STACK: usize = 8 << 20;

/// Words of it that are painted.
const WORDS: usize = (6 << 20) / 8;

/// Bytes that are left as they are below the local that marks the caller's frame: what
/// the frame itself has there, and what painting needs.
const SPARED: usize = 4096;

const PAINT: u64 = 0xa5c3_96e1_5ad2_784b;

/// Bytes from the frame of this function down to the lowest word that a call changes.
#[inline(never)]
fn below(call: &mut dyn FnMut()) -> usize {
    let mark = 0u64;
    let top = &raw const mark as usize;
    let word = |at: usize| (top - SPARED - 8 * at) as *mut u64;
    // The words belong to this thread's stack, and no frame that is in use reaches down
    // to them. They are no objects of Rust: only volatile access is sure to be made.
    let paint = |at: usize| unsafe { word(at).write_volatile(PAINT) };
    let gone = |at: &usize| unsafe { word(*at).read_volatile() } != PAINT;
    (0..WORDS).for_each(paint);
    call();
    let lowest = (0..WORDS)
        .rev()
        .find(gone)
        .expect("a call that takes more than is spared");
    SPARED + 8 * lowest
}

/// Bytes of stack that a call takes, in a thread of its own.
fn taken(mut call: impl FnMut() + Send) -> usize {
    thread::scope(|scope| {
        let thread = thread::Builder::new().stack_size(STACK);
        let measured = thread.spawn_scoped(scope, || below(&mut call));
        measured
            .expect("a thread")
            .join()
            .expect("a call that ends")
    })
}

/// Bytes of stack that judging, evaluating, compiling, running and tabulating take, the
/// last with some variables chosen.
pub fn of_services(book: &[u8], scope: usize, chosen: &[u8]) -> [usize; 5] {
    let code = compiled(book);
    let (mut room, mut results) = (code.clone(), [0; 192]);
    let mut table = vec![0; HUGE];
    let accepted = "an accepted book";
    [
        taken(|| _ = engine::judge(book).expect(accepted)),
        taken(|| _ = engine::evaluate(book, scope, &[], &mut results).expect(accepted)),
        taken(|| _ = engine::compile(book, &mut room).expect(accepted)),
        taken(|| _ = engine::run(&code, scope, &[], &mut results).expect(accepted)),
        taken(|| _ = engine::tabulate(book, scope, chosen, &[], &mut table).expect(accepted)),
    ]
}

/// The most that each service may take, by the header for C.
const HEADER: &str = include_str!("../../include/engine.h");

/// The number that the header gives a name.
fn defined(name: &str) -> usize {
    let line = format!("#define {name} ");
    let value = HEADER.lines().find_map(|of| of.strip_prefix(&line));
    let number = value.and_then(|value| value.trim().parse().ok());
    number.unwrap_or_else(|| panic!("no number {name} in the header"))
}

const SERVICES: [&str; 5] = ["JUDGE", "EVALUATE", "COMPILE", "RUN", "TABULATE"];

/// Bytes of stack that each service takes at most, on what goes deepest: a table with
/// nothing chosen, and one whose rows differ.
fn deepest_of_services() -> [usize; 5] {
    let books = deepest::CHAINS.map(|of| deepest::book(of).bytes());
    let mut most = [0; 5];
    for (book, chosen) in books
        .iter()
        .flat_map(|book| [(book, &[][..]), (book, &[0])])
    {
        let taken = of_services(book, 31, chosen);
        most = std::array::from_fn(|service| most[service].max(taken[service]));
    }
    let (code, mut results) = (deepest::code(1_024), [0; 192]);
    let ran = taken(|| _ = engine::run(&code, 31, &[], &mut results).expect("accepted code"));
    most[3] = most[3].max(ran);
    most
}

/// Holds the stack of each service to the header.
pub fn run() -> bool {
    let mut failed = 0;
    for (name, taken) in SERVICES.iter().zip(deepest_of_services()) {
        let most = defined(&format!("ENGINE_STACK_{name}"));
        println!("{name}: {taken} bytes of stack, at most {most}");
        failed += usize::from(most < taken);
    }
    println!("{} passed, {failed} failed", SERVICES.len() - failed);
    failed == 0
}

#[cfg(test)]
mod tests {
    use super::*;
    use std::hint::black_box;

    /// Takes `LENGTH` bytes of stack and little more.
    #[inline(never)]
    fn takes<const LENGTH: usize>() {
        black_box(&mut [1u8; LENGTH]);
    }

    #[test]
    fn a_call_takes_what_its_locals_take() {
        let some = taken(takes::<100_000>);
        assert!((100_000..102_000).contains(&some), "{some}");
        let more = taken(takes::<3_000_000>);
        assert!((3_000_000..3_002_000).contains(&more), "{more}");
    }
}
