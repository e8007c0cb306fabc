//! Counts of what passed and what failed, and what is said of it.

use crate::output::Answer;
use second::answer::Outcome;

#[derive(Debug, Default)]
pub struct Tally {
    pub passed: usize,
    pub failed: usize,
    said: Vec<String>,
}

/// The outcomes by their numbers.
const OUTCOMES: [&str; 5] = ["values", "empty", "conflict", "above", "below"];

/// How often each outcome was met, by its number.
#[derive(Debug, Default)]
pub struct Met([usize; OUTCOMES.len()]);

impl Met {
    pub fn add(&mut self, outcome: Outcome) {
        self.0[outcome as usize] += 1;
    }
}

/// No more failures than this are shown.
const SHOWN: usize = 20;

impl Tally {
    /// One test: nothing, or what is wrong.
    pub fn count(&mut self, result: Result<(), String>) {
        match result {
            Ok(()) => self.passed += 1,
            Err(wrong) => {
                self.failed += 1;
                if self.failed <= SHOWN {
                    self.say(format!("failed: {wrong}"));
                }
            }
        }
    }

    pub fn say(&mut self, line: String) {
        self.said.push(line);
    }

    /// Says how often each outcome was met; one that was not met is a failure.
    pub fn met(&mut self, what: &str, met: &Met) {
        let named = OUTCOMES.iter().zip(met.0);
        let counts: Vec<String> = named
            .map(|(name, times)| format!("{name} {times}"))
            .collect();
        self.say(format!("{what}: {}", counts.join(", ")));
        for (name, times) in OUTCOMES.iter().zip(met.0) {
            let wrong = || format!("{what}: none ended in {name}; try a greater count");
            self.count((times > 0).then_some(()).ok_or_else(wrong));
        }
    }

    /// What was said, and the counts: good where all passed and there was something to pass.
    pub fn finish(mut self) -> Answer {
        let counts = format!("{} passed, {} failed\n", self.passed, self.failed);
        self.said.push(counts);
        Answer {
            bytes: self.said.join("\n").into_bytes(),
            good: self.failed == 0 && self.passed > 0,
        }
    }
}
