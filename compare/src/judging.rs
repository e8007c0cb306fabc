//! Judging: the engine's answer and the second program's, on fixed and on
//! generated cases. Every case's bytes are judged as a book, code included.

use crate::engine;
use crate::tally::{Done, Tally};
use second::cases::Case;

fn shown(answer: Result<usize, u8>) -> String {
    match answer {
        Ok(_) => "accepted".to_string(),
        Err(refusal) => format!("refused {refusal}"),
    }
}

fn compare(tally: &mut Tally, case: &Case, label: &str) {
    let bytes = &case.bytes;
    let (ours, theirs) = (engine::judge(bytes), second::judge(bytes));
    let done = |answer| Done {
        answer,
        memory: Vec::new(),
    };
    let on = || format!("{label}: {bytes:02x?}");
    tally.agree(&shown(theirs), (&done(ours), &done(theirs)), on);
}

/// All fixed cases and `random` generated ones; each answer must be met.
pub fn run(random: u64) -> bool {
    let mut tally = Tally::of_cases(random, compare);
    tally.expect_met("accepted");
    (1..=12).for_each(|refusal| tally.expect_met(&format!("refused {refusal}")));
    tally.finish()
}
