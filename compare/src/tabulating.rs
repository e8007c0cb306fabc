//! Tabulating: the engine's answer and memory and the second program's, on the fixed and
//! on generated tabulations.

use crate::engine;
use crate::evaluating::OUTCOMES;
use crate::overriding;
use crate::tally::{Done, Tally};
use second::cases::{lend, tables, tabulation, Case, Reply, Success};
use second::selfcheck::{in_table, Former, TABULATED};
use second::tabulate::MAX_CHOSEN;

type Tabulate = fn(&[u8], usize, &[u8], &[u8], &mut [u8]) -> Result<usize, u8>;
type Tabulated = Done<Result<usize, u8>>;

fn done(tabulate: Tabulate, case: &Case) -> Tabulated {
    let mut memory = lend(case.room);
    let (chosen, inputs) = (&case.chosen, &case.inputs);
    let answer = tabulate(&case.bytes, case.scope, chosen, inputs, &mut memory);
    Done { answer, memory }
}

fn shown(answer: Result<usize, u8>) -> String {
    match answer {
        Ok(_) => "written".to_string(),
        Err(refusal) => format!("refused {refusal}"),
    }
}

fn number(chosen: usize) -> String {
    format!("{chosen} chosen")
}

fn ending(outcome: &str) -> String {
    format!("a row of {outcome}")
}

/// Notes how many were chosen for a table, or that one was too many, and how rows ended.
fn note(tally: &mut Tally, case: &Case, tabulated: &Tabulated) {
    let chosen = case.chosen.len();
    let length = match tabulated.answer {
        Ok(length) => length,
        Err(18) if chosen == MAX_CHOSEN + 1 => return tally.meet(&number(chosen)),
        Err(_) => return,
    };
    tally.meet(&number(chosen));
    let mut met = [false; OUTCOMES.len()];
    let rows = tabulated.memory[..length].chunks_exact(length >> chosen);
    rows.for_each(|row| met[usize::from(row[0])] = true);
    let met = OUTCOMES.iter().zip(met).filter(|&(_, met)| met);
    met.for_each(|(outcome, _)| tally.meet(&ending(outcome)));
}

fn compare(tally: &mut Tally, case: &Case, label: &str) {
    let (ours, theirs) = (done(engine::tabulate, case), done(second::tabulate, case));
    note(tally, case, &theirs);
    let on = || format!("{label}: {case:02x?}");
    tally.agree(&shown(theirs.answer), (&ours, &theirs), on);
    if theirs.answer.is_ok() {
        overriding::note(tally, TABULATED, in_table(case));
        let reply = Reply {
            result: ours.answer.map(Success::Table),
            memory: ours.memory,
        };
        overriding::compare_former(tally, &Former::table(case), &reply, on);
    }
}

/// All fixed tabulations and `random` generated ones; each answer, each outcome of a row,
/// each number of chosen and all that may become of an override must be met.
pub fn run(random: u64) -> bool {
    let mut tally = Tally::default();
    for case in tables() {
        compare(&mut tally, &case, case.label);
    }
    for seed in 0..random {
        compare(&mut tally, &tabulation(seed), &format!("seed {seed}"));
    }
    tally.expect_met("written");
    for refusal in (1..=15).chain([18]) {
        tally.expect_met(&format!("refused {refusal}"));
    }
    for outcome in OUTCOMES {
        tally.expect_met(&ending(outcome));
    }
    for chosen in 0..=MAX_CHOSEN + 1 {
        tally.expect_met(&number(chosen));
    }
    overriding::expect(&mut tally, TABULATED);
    overriding::expect_former(&mut tally);
    tally.finish()
}
