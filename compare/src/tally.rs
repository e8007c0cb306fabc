//! Counts of what agreed and what did not, and of the answers met.

use second::cases::{self, Case, Reply, Success};
use second::Answer;
use std::collections::BTreeMap;
use std::fmt::Debug;

#[derive(Default)]
pub struct Tally {
    passed: usize,
    failed: usize,
    answers: BTreeMap<String, usize>,
}

/// What a call answered, and the memory lent to it afterwards.
#[derive(PartialEq)]
pub struct Done<A> {
    pub answer: A,
    pub memory: Vec<u8>,
}

impl Done<Result<Answer, u8>> {
    pub fn reply(self) -> Reply {
        Reply {
            result: self.answer.map(Success::Answer),
            memory: self.memory,
        }
    }
}

impl Tally {
    /// What a comparison makes of all fixed cases and of `random` generated ones.
    pub fn of_cases(random: u64, compare: impl Fn(&mut Tally, &Case, &str)) -> Tally {
        let mut tally = Tally::default();
        for case in cases::fixed() {
            compare(&mut tally, &case, case.label);
        }
        for seed in 0..random {
            compare(&mut tally, &cases::case(seed), &format!("seed {seed}"));
        }
        tally
    }

    /// One call of the engine and of the second program, on what is shown if they differ.
    pub fn agree<A: PartialEq + Debug>(
        &mut self,
        shown: &str,
        (ours, theirs): (&Done<A>, &Done<A>),
        on: impl FnOnce() -> String,
    ) {
        let difference = || {
            let memory = if ours.memory == theirs.memory {
                ""
            } else {
                ", memories differ"
            };
            let (engine, second) = (&ours.answer, &theirs.answer);
            format!(
                "engine {engine:?}, second program {second:?}{memory}: {}",
                on()
            )
        };
        self.count(shown, (ours == theirs).then_some(()).ok_or_else(difference));
    }

    /// Something that was met on the way; it is no comparison of its own.
    pub fn meet(&mut self, answer: &str) {
        *self.answers.entry(answer.to_string()).or_default() += 1;
    }

    /// One comparison: what both answered, or how they differ.
    pub fn count(&mut self, answer: &str, agreed: Result<(), String>) {
        self.meet(answer);
        self.judge(agreed);
    }

    fn judge(&mut self, agreed: Result<(), String>) {
        match agreed {
            Ok(()) => self.passed += 1,
            Err(difference) => {
                self.failed += 1;
                if self.failed <= 20 {
                    println!("differs: {difference}");
                }
            }
        }
    }

    /// An answer that must have been met at least once; that it was is no case of it.
    pub fn expect_met(&mut self, answer: &str) {
        let met = self.answers.contains_key(answer);
        let missing = || format!("no case was answered with {answer}");
        self.judge(met.then_some(()).ok_or_else(missing));
    }

    /// Prints the counts; whether nothing failed.
    pub fn finish(&self) -> bool {
        for (answer, times) in &self.answers {
            println!("{answer}: {times}");
        }
        println!("{} passed, {} failed", self.passed, self.failed);
        self.failed == 0
    }
}

#[cfg(test)]
mod tests {
    use super::*;

    fn agreed(ours: (u8, &[u8]), theirs: (u8, &[u8])) -> bool {
        let done = |(answer, memory): (u8, &[u8])| Done {
            answer,
            memory: memory.to_vec(),
        };
        let mut tally = Tally::default();
        tally.agree("an answer", (&done(ours), &done(theirs)), String::new);
        tally.finish()
    }

    #[test]
    fn another_answer_or_byte_is_a_failure() {
        assert!(agreed((1, &[7, 8]), (1, &[7, 8])));
        assert!(!agreed((1, &[7, 8]), (2, &[7, 8])));
        assert!(!agreed((1, &[7, 8]), (1, &[7, 9])));
        assert!(!agreed((1, &[7, 8]), (1, &[7])));
    }

    #[test]
    fn an_answer_never_met_is_a_failure() {
        let mut tally = Tally::default();
        tally.count("met", Ok(()));
        tally.expect_met("met");
        assert!(tally.finish());
        tally.expect_met("never met");
        assert!(!tally.finish());
        assert_eq!(tally.answers, BTreeMap::from([("met".to_string(), 1)]));
    }
}
