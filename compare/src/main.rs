//! Compares the proved engine with the second program.

mod bench;
mod bench_tables;
mod clock;
mod compiling;
mod engine;
mod evaluating;
mod family;
mod judging;
mod ocaml;
mod overriding;
mod running;
mod runs;
mod stack;
mod tabulating;
mod tally;
mod timing;

use std::process::ExitCode;

const USAGE: &str = "compare judge CASES | compare evaluate CASES | compare compile CASES | compare run CASES | compare tabulate CASES | compare runs PROGRAM STACK_KIB FILE | compare stack | compare ocaml CASES | compare bench [PART_OF_A_BOOKS_NAME]";

fn main() -> ExitCode {
    let words: Vec<String> = std::env::args().skip(1).collect();
    let words: Vec<&str> = words.iter().map(String::as_str).collect();
    let agreed = match words[..] {
        ["judge", cases] => judging::run(cases.parse().expect(USAGE)),
        ["evaluate", cases] => evaluating::run(cases.parse().expect(USAGE)),
        ["compile", cases] => compiling::run(cases.parse().expect(USAGE)),
        ["run", cases] => running::run(cases.parse().expect(USAGE)),
        ["tabulate", cases] => tabulating::run(cases.parse().expect(USAGE)),
        ["runs", program, stack, file] => runs::run(program, stack.parse().expect(USAGE), file),
        ["stack"] => stack::run(),
        ["ocaml", cases] => ocaml::run(cases.parse().expect(USAGE)),
        ["bench"] => bench::run(""),
        ["bench", part] => bench::run(part),
        _ => {
            eprintln!("{USAGE}");
            false
        }
    };
    ExitCode::from(u8::from(!agreed))
}
