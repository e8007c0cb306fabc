//! Subcommands: rulerun, examples, selfcheck, case, table.

use second::cases::Case;
use second::examples::digits;
use std::io::{Read, Write};
use std::process::ExitCode;

fn main() -> ExitCode {
    match std::env::args().nth(1).as_deref() {
        Some("rulerun") => rulerun(),
        Some("examples") => finish(second::examples::report()),
        Some("selfcheck") => selfcheck(),
        Some("case") => show(second::cases::case),
        Some("table") => show(second::cases::tabulation),
        _ => {
            eprintln!(
                "usage: second rulerun | examples | selfcheck [cases] | case seed | table seed"
            );
            ExitCode::from(2)
        }
    }
}

fn rulerun() -> ExitCode {
    let mut bytes = Vec::new();
    if let Err(error) = std::io::stdin().read_to_end(&mut bytes) {
        eprintln!("{error}");
        return ExitCode::from(2);
    }
    let printed = second::rulerun::rulerun(&bytes);
    match std::io::stdout().write_all(printed.as_bytes()) {
        Ok(()) => ExitCode::SUCCESS,
        Err(_) => ExitCode::from(2),
    }
}

/// Prints the case of a seed and this program's reply to it.
fn show(of: fn(u64) -> Case) -> ExitCode {
    let seed = std::env::args().nth(2).and_then(|n| n.parse().ok());
    let Some(seed) = seed else {
        return ExitCode::from(2);
    };
    let case = of(seed);
    let reply = case.reply();
    println!("{:?} {}", case.service, case.label);
    println!("bytes {}", digits(&case.bytes));
    println!("scope {}", case.scope);
    println!("chosen {}", digits(&case.chosen));
    println!("inputs {}", digits(&case.inputs));
    println!("room {}", case.room);
    println!("{:?}", reply.result);
    println!("memory {}", digits(&reply.memory));
    ExitCode::SUCCESS
}

/// Random cases unless a number is asked for.
const CASES: u64 = 110_000;

fn selfcheck() -> ExitCode {
    let asked = std::env::args().nth(2).map_or(Ok(CASES), |n| n.parse());
    match asked {
        Ok(cases) => finish(second::selfcheck::selfcheck(cases)),
        Err(_) => ExitCode::from(2),
    }
}

/// Prints the tally; a failure shows in the exit status.
fn finish((passed, failed): (usize, usize)) -> ExitCode {
    println!("{passed} passed, {failed} failed");
    ExitCode::from(u8::from(failed > 0))
}
