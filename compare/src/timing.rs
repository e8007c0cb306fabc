//! Times of calls, in turns, over the copies of the engine.

use crate::clock;
use crate::engine::{Engine, COPIES, FORMER, PLACED};
use std::time::Instant;

/// What is timed.
pub type Call<'a> = Box<dyn FnMut() + 'a>;

/// Most rounds of a row, and the seconds for each of its calls after which no other begins.
const ROUNDS: usize = 300;
const SECONDS: f64 = 1.5;

/// Microseconds of processor time of one call, in a round of about a millisecond.
fn round(call: &mut Call) -> f64 {
    let (before, start, mut calls) = (clock::microseconds(), Instant::now(), 0u32);
    while start.elapsed().as_micros() < 1000 {
        call();
        calls += 1;
    }
    (clock::microseconds() - before) / f64::from(calls)
}

/// Microseconds of one call of each: the best of many rounds, in turns, so that what
/// else the machine does slows all alike.
fn times(mut calls: Vec<Call>) -> Vec<f64> {
    let (start, seconds) = (Instant::now(), SECONDS * calls.len() as f64);
    let mut best = vec![f64::INFINITY; calls.len()];
    let rounds = (0..ROUNDS).take_while(|_| start.elapsed().as_secs_f64() < seconds);
    for _ in rounds {
        for (best, call) in best.iter_mut().zip(&mut calls) {
            *best = best.min(round(call));
        }
    }
    best
}

/// Times of the copies of a library: their mean, the least and the most.
#[derive(Clone, Copy, Debug, PartialEq)]
pub struct Spread {
    pub mean: f64,
    pub least: f64,
    pub most: f64,
}

impl Spread {
    fn of(times: &[f64]) -> Spread {
        Spread {
            mean: times.iter().sum::<f64>() / times.len() as f64,
            least: times.iter().copied().fold(f64::INFINITY, f64::min),
            most: times.iter().copied().fold(0.0, f64::max),
        }
    }
}

/// The times of the engine, of the former one if there is one, and of another program.
pub struct Beside {
    pub engine: Spread,
    pub former: Option<Spread>,
    pub other: f64,
}

impl Beside {
    /// The engine's mean time by the other program's.
    pub fn ratio(&self) -> f64 {
        self.engine.mean / self.other
    }

    /// The titles of the columns that `columns` fills, and the line below them.
    pub fn titles() -> (&'static str, &'static str) {
        match FORMER {
            None => (" ratio | least to most |", "---|---|"),
            Some(_) => (
                " ratio | least to most | former us | engine/former |",
                "---|---|---|---|",
            ),
        }
    }

    /// The engine by the other program, and by the former engine.
    pub fn columns(&self) -> String {
        let (least, most) = (self.engine.least, self.engine.most);
        let (least, most) = (least / self.other, most / self.other);
        let ratios = format!(" {:.2} | {least:.2} to {most:.2} |", self.ratio());
        match self.former {
            None => ratios,
            Some(former) => {
                let by_former = self.engine.mean / former.mean;
                format!("{ratios} {:.2} | {by_former:.3} |", former.mean)
            }
        }
    }
}

/// A call of the engine, by each of its copies, and one of another program, in turns.
pub fn beside<'a>(ours: impl Fn(&'static Engine) -> Call<'a>, other: Call<'a>) -> Beside {
    let former = FORMER.iter().flatten();
    let mut calls: Vec<Call> = PLACED.iter().chain(former).map(ours).collect();
    calls.push(other);
    let times = times(calls);
    let (engine, rest) = times.split_at(COPIES);
    let (former, other) = rest.split_at(rest.len() - 1);
    Beside {
        engine: Spread::of(engine),
        former: (!former.is_empty()).then(|| Spread::of(former)),
        other: other[0],
    }
}

/// The mean times of two calls of the engine, by each of its copies, in turns.
pub fn of_two<'a>(
    one: impl Fn(&'static Engine) -> Call<'a>,
    other: impl Fn(&'static Engine) -> Call<'a>,
) -> (f64, f64) {
    let calls = PLACED.iter().map(one).chain(PLACED.iter().map(other));
    let times = times(calls.collect());
    let (one, other) = times.split_at(COPIES);
    (Spread::of(one).mean, Spread::of(other).mean)
}

#[cfg(test)]
mod tests {
    use super::*;

    #[test]
    fn a_spread_has_mean_least_and_most() {
        let spread = Spread {
            mean: 3.0,
            least: 2.0,
            most: 5.0,
        };
        assert_eq!(Spread::of(&[2.0, 5.0, 2.0]), spread);
    }

    #[test]
    fn each_call_is_timed_in_each_round() {
        let counts = [const { std::cell::Cell::new(0) }; 2];
        let calls = counts.each_ref().map(|count| -> Call {
            Box::new(move || {
                count.set(count.get() + 1);
                std::thread::sleep(std::time::Duration::from_millis(2));
            })
        });
        let times = times(calls.into());
        assert!(times.iter().all(|time| *time < 2000.0), "{times:?}");
        assert_eq!(counts[0].get(), counts[1].get());
        assert!((1..=ROUNDS).contains(&counts[0].get()));
    }

    #[test]
    fn every_copy_judges_as_the_library() {
        let book = crate::family::book();
        let copies = PLACED.iter().chain(FORMER.iter().flatten());
        for copy in copies {
            assert_eq!(copy.judge(&book), crate::engine::judge(&book));
        }
    }

    #[test]
    fn copies_lie_at_other_places() {
        let places: Vec<usize> = PLACED.iter().map(Engine::place).collect();
        assert_eq!(places, [0, 16, 32, 48]);
    }
}
