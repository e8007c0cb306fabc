//! Running compiled code, judging it first.

use crate::answer::{Answer, Outcome};
use crate::code::{accept, CodeFault};
use crate::machine::{Halt, Machine, Observer, Stuck};
use crate::records::{prepare, write_results};
use crate::refusal::Refusal;

/// Why a run is refused, with the cause behind 16 and 17.
#[derive(Clone, Copy, Debug, PartialEq, Eq)]
pub enum Denial {
    BadCode(CodeFault),
    Refused(Refusal),
    Stuck(Stuck),
}

impl From<Denial> for u8 {
    fn from(denial: Denial) -> u8 {
        match denial {
            Denial::BadCode(_) => Refusal::BadCode.into(),
            Denial::Refused(refusal) => refusal.into(),
            Denial::Stuck(_) => Refusal::Stuck.into(),
        }
    }
}

/// Runs a scope of code: refusals 16, 13, 14, 15, 17, or the answer with its
/// results written.
pub fn run(code: &[u8], scope: usize, inputs: &[u8], results: &mut [u8]) -> Result<Answer, u8> {
    Ok(observed_run(code, scope, inputs, results, ())?)
}

/// The same, with the cause of a refusal and every instruction shown to an observer.
pub fn observed_run(
    code: &[u8],
    scope: usize,
    inputs: &[u8],
    results: &mut [u8],
    observer: impl Observer,
) -> Result<Answer, Denial> {
    let code = accept(code).map_err(Denial::BadCode)?;
    let block = code
        .find(scope)
        .ok_or(Denial::Refused(Refusal::NoSuchScope))?;
    let variables = &code.blocks[block].variables;
    let mut slots = vec![None; variables.len()];
    let length = prepare(variables, inputs, results.len(), &mut slots).map_err(Denial::Refused)?;
    let mut machine = Machine::new(&code, block, slots, observer);
    let (outcome, length) = match machine.run() {
        Ok(()) => {
            write_results(machine.values(), results);
            (Outcome::Values, length)
        }
        Err(Halt::Failed(failure)) => (failure.into(), 0),
        Err(Halt::Stuck(stuck)) => return Err(Denial::Stuck(stuck)),
    };
    Ok(Answer {
        outcome,
        count: machine.count,
        length,
    })
}
