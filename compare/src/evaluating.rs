//! Evaluating: the engine's answer and memory and the second program's, on fixed
//! and on generated cases of every service: bytes, scope, inputs and room of a case
//! are handed to evaluation, whatever service the case is for.

use crate::engine;
use crate::overriding;
use crate::tally::{Done, Tally};
use second::cases::{lend, Case};
use second::selfcheck::{in_evaluation, Former, EVALUATED};
use second::Answer;

pub const OUTCOMES: [&str; 5] = ["values", "empty", "conflict", "above", "below"];

/// How an evaluation or a run ended.
pub fn outcome(answer: Answer) -> &'static str {
    OUTCOMES[answer.outcome as usize]
}

fn shown(answer: Result<Answer, u8>) -> String {
    match answer {
        Ok(answer) => outcome(answer).to_string(),
        Err(refusal) => format!("refused {refusal}"),
    }
}

/// Evaluating or running.
pub type Service = fn(&[u8], usize, &[u8], &mut [u8]) -> Result<Answer, u8>;

/// What a service does on bytes, scope, inputs and room of a case.
pub fn done(service: Service, case: &Case) -> Done<Result<Answer, u8>> {
    let mut memory = lend(case.room);
    let answer = service(&case.bytes, case.scope, &case.inputs, &mut memory);
    Done { answer, memory }
}

fn compare(tally: &mut Tally, case: &Case, label: &str) {
    let (ours, theirs) = (done(engine::evaluate, case), done(second::evaluate, case));
    let on = || format!("{label}: {case:02x?}");
    tally.agree(&shown(theirs.answer), (&ours, &theirs), on);
    if theirs.answer.is_ok() {
        overriding::note(tally, EVALUATED, in_evaluation(case));
        overriding::compare_former(tally, &Former::evaluation(case), &ours.reply(), on);
    }
}

/// All fixed cases and `random` generated ones; each answer must be met, and all that may
/// become of an override.
pub fn run(random: u64) -> bool {
    let mut tally = Tally::of_cases(random, compare);
    OUTCOMES
        .iter()
        .for_each(|outcome| tally.expect_met(outcome));
    (1..=15).for_each(|refusal| tally.expect_met(&format!("refused {refusal}")));
    overriding::expect(&mut tally, EVALUATED);
    overriding::expect_former(&mut tally);
    tally.finish()
}
