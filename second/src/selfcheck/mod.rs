//! The paper's demands, tried on this program itself over the fixed and many random
//! cases, with a count of what was met on the way.

mod checks;
mod coverage;
mod fallbacks;
mod former;
mod leaving;

use crate::cases::{case, fixed, foreign_code, standard_input, tables, tabulation, Case};
use coverage::Coverage;
use std::panic::{catch_unwind, AssertUnwindSafe};

pub use coverage::{expected_code_faults, expected_stuck};
pub use fallbacks::{caught, executed, in_evaluation, in_table, tried};
pub use fallbacks::{expected_overridden, Met, Overridden, TABULATED, TRIED};
pub use former::Former;
pub use leaving::{expected_leaving, places, Leaving, COMPILED, EVALUATED};

/// Most failures that are printed in full.
const SHOWN: usize = 20;

#[derive(Default)]
struct Tally {
    passed: usize,
    failed: usize,
}

impl Tally {
    fn count(&mut self, name: impl Fn() -> String, result: Result<(), String>) {
        let Err(reason) = result else {
            self.passed += 1;
            return;
        };
        self.failed += 1;
        if self.failed <= SHOWN {
            println!("{}: {reason}", name());
        }
    }
}

/// Does one check; a panic is a failure like any other.
fn checked(check: impl FnOnce() -> Result<(), String>) -> Result<(), String> {
    catch_unwind(AssertUnwindSafe(check)).unwrap_or_else(|_| Err("panicked".to_string()))
}

fn described(case: &Case) -> String {
    let bytes = &case.bytes[..case.bytes.len().min(120)];
    format!(
        "{} ({:?}, scope {}, chosen {}, inputs {}, room {}, {} bytes {})",
        case.label,
        case.service,
        case.scope,
        crate::examples::digits(&case.chosen),
        crate::examples::digits(&case.inputs),
        case.room,
        case.bytes.len(),
        crate::examples::digits(bytes),
    )
}

/// Checks the fixed cases and random ones of seeds from 0 on; prints a summary and
/// hands back how many cases and coverage classes passed and failed.
pub fn selfcheck(random: u64) -> (usize, usize) {
    let mut tally = Tally::default();
    let mut coverage = Coverage::default();
    let fixed = [fixed(), tables()].concat();
    for case in &fixed {
        let result = checked(|| checks::check(case, &mut coverage));
        tally.count(|| described(case), result);
    }
    for seed in 0..random {
        let case = case(seed);
        let result = checked(|| checks::check(&case, &mut coverage));
        tally.count(|| format!("seed {seed}, {}", described(&case)), result);
    }
    for seed in 0..random / 4 {
        let case = foreign_code(seed);
        let result = checked(|| checks::check(&case, &mut coverage));
        tally.count(|| format!("code {seed}, {}", described(&case)), result);
    }
    for seed in 0..random / 8 {
        let case = tabulation(seed);
        let result = checked(|| checks::check(&case, &mut coverage));
        tally.count(|| format!("table {seed}, {}", described(&case)), result);
    }
    for seed in 0..random / 20 {
        let bytes = standard_input(seed);
        let result = checked(|| checks::check_rulerun(&bytes, &mut coverage));
        tally.count(|| format!("standard input {seed}"), result);
    }
    let (fixed, codes, tables) = (fixed.len(), random / 4, random / 8);
    println!("{fixed} fixed cases, {random} random cases, {codes} codes that no compiler wrote, {tables} tabulations");
    coverage.print();
    for (class, hits) in coverage.classes() {
        let met = if hits > 0 {
            Ok(())
        } else {
            Err("never met".to_string())
        };
        tally.count(|| class.clone(), met);
    }
    (tally.passed, tally.failed)
}

#[cfg(test)]
mod tests {
    #[test]
    fn a_short_self_check_passes() {
        let (passed, failed) = super::selfcheck(6_000);
        assert!(
            passed > 6_000 && failed == 0,
            "{passed} passed, {failed} failed"
        );
    }
}
