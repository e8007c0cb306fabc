//! Running: the engine's answer and memory and the second program's. Code that the
//! engine compiled from accepted books, on every scope, is compared with evaluating too, and
//! their code of the translation before request 5 with the evaluation of that time. Then
//! code that no compiler wrote, and named code for each way of refusals 16 and 17.

use crate::engine;
use crate::evaluating::{done, outcome, OUTCOMES};
use crate::overriding;
use crate::tally::{Done, Tally};
use second::cases::draft::results_length;
use second::cases::fallbacks::FORMER;
use second::cases::random::Random;
use second::cases::{self, damage, inputs, lend, mix, Case, Expected, Service, Success};
use second::machine::{join_cases, Observer, Side};
use second::run::{observed_run, Denial};
use second::selfcheck::{caught, executed, in_evaluation, Former, Overridden};
use second::selfcheck::{expected_code_faults, expected_leaving, expected_stuck};
use second::selfcheck::{places, Leaving, COMPILED, EVALUATED};
use second::value::{Failure, Place};
use second::{code_by, Answer, Overriding};
use std::collections::BTreeSet;

type Ran = Done<Result<Answer, u8>>;

/// An answer of the second program, with the cause behind 16 and 17.
fn shown(answer: Result<Answer, Denial>) -> String {
    match answer {
        Ok(answer) => outcome(answer).to_string(),
        Err(denial) => refused(denial),
    }
}

fn refused(denial: Denial) -> String {
    let cause = match denial {
        Denial::Refused(_) => String::new(),
        Denial::BadCode(fault) => format!(", {fault:?}"),
        Denial::Stuck(stuck) => format!(", {:?} at kind {}", stuck.cause, stuck.kind),
    };
    format!("refused {}{cause}", u8::from(denial))
}

fn described(case: &Case, label: &str) -> String {
    let (all, shown) = (case.bytes.len(), case.bytes.len().min(1_000));
    let (scope, inputs, room) = (case.scope, &case.inputs, case.room);
    let code = &case.bytes[..shown];
    format!("{label}, scope {scope}, inputs {inputs:02x?}, room {room}, {all} bytes: {code:02x?}")
}

/// The cases of the join that a run met, where it left the range, and its overrides.
#[derive(Default)]
struct Met {
    joins: BTreeSet<(Side, Side)>,
    leaving: Vec<(Place, Failure)>,
    overrides: BTreeSet<Overridden>,
}

impl Observer for &mut Met {
    fn executes(&mut self, kind: u8) {
        self.overrides.extend(executed(kind));
    }

    fn joins(&mut self, case: (Side, Side)) {
        self.joins.insert(case);
    }

    fn leaves(&mut self, place: Place, side: Failure) {
        self.leaving.push((place, side));
    }

    fn catches(&mut self, depth: usize, code: &[u8], landing: usize) {
        self.overrides.extend(caught(depth, code, landing));
    }
}

fn joined((left, right): (Side, Side)) -> String {
    format!("joined, {left:?} with {right:?}")
}

fn left((label, place, side): Leaving) -> String {
    format!("out of range, {label}: {place:?} {side:?}")
}

/// Notes where an evaluation, or the run of code with a label, left the range.
fn note_leaving(tally: &mut Tally, label: &'static str, leaving: Vec<(Place, Failure)>) {
    for (place, side) in leaving {
        tally.meet(&left((label, place, side)));
    }
}

/// One run by both; what the engine did, and why the second program refused.
fn compare(tally: &mut Tally, case: &Case, label: &str) -> (Ran, Option<Denial>) {
    let ours = done(engine::run, case);
    let mut memory = lend(case.room);
    let mut met = Met::default();
    let (code, scope, inputs) = (&case.bytes, case.scope, &case.inputs);
    let ran = observed_run(code, scope, inputs, &mut memory, &mut met);
    met.joins
        .into_iter()
        .for_each(|case| tally.meet(&joined(case)));
    note_leaving(tally, case.label, met.leaving);
    overriding::note(tally, case.label, met.overrides);
    let theirs = Done {
        answer: ran.map_err(u8::from),
        memory,
    };
    let on = || described(case, label);
    tally.agree(&shown(ran), (&ours, &theirs), on);
    (ours, ran.err())
}

/// Bytes as a case, without inputs and memory.
pub fn run_of(label: &'static str, bytes: Vec<u8>) -> Case {
    Case {
        label,
        service: Service::Run,
        bytes,
        scope: 0,
        chosen: Vec::new(),
        inputs: Vec::new(),
        room: 0,
        expected: Expected::Anything,
    }
}

/// The code that the engine compiles from an accepted book, of at most 16 bytes for each
/// of the book's; a refusal is a failure.
fn compiled(tally: &mut Tally, book: &[u8], label: &str) -> Vec<u8> {
    let mut code = vec![0; 16 * book.len()];
    let written = engine::compile(book, &mut code);
    code.truncate(written.unwrap_or(0));
    let on = |refusal| format!("{label}: compiling is refused with {refusal}: {book:02x?}");
    tally.count("compiled", written.map(|_| ()).map_err(on));
    code
}

/// A book and its code, each as the case of its service; and its former code.
struct Pair<'a> {
    book: Case,
    code: Case,
    former: Case,
    label: &'a str,
}

impl Pair<'_> {
    fn of<'a>(tally: &mut Tally, book: &[u8], label: &'a str) -> Pair<'a> {
        let former = code_by(Overriding::EndsCaller, book).unwrap_or_default();
        Pair {
            book: run_of(EVALUATED, book.to_vec()),
            code: run_of(COMPILED, compiled(tally, book, label)),
            former: run_of(FORMER, former),
            label,
        }
    }

    /// Runs the code, and evaluates the book on the same: "equal result memories".
    fn compare(&mut self, tally: &mut Tally, scope: usize, inputs: &[u8], room: usize) {
        for case in [&mut self.book, &mut self.code, &mut self.former] {
            (case.scope, case.room) = (scope, room);
            case.inputs = inputs.to_vec();
        }
        let (ran, _) = compare(tally, &self.code, self.label);
        let evaluated = done(engine::evaluate, &self.book);
        let difference = || {
            let (run, evaluate) = (&ran.answer, &evaluated.answer);
            let on = described(&self.book, self.label);
            format!("run {run:?}, evaluated {evaluate:?}, or their memories: {on}")
        };
        let agreed = (ran == evaluated).then_some(()).ok_or_else(difference);
        tally.count("as evaluated", agreed);
        let Ok(answer) = ran.answer else { return };
        overriding::note(tally, EVALUATED, in_evaluation(&self.book));
        if answer.outcome.is_out_of_range() {
            note_leaving(tally, EVALUATED, places(&self.book));
        }
        self.compare_former(tally);
    }

    /// Runs the former code: "code compiled before runs as before".
    fn compare_former(&self, tally: &mut Tally) {
        let (ran, _) = compare(tally, &self.former, self.label);
        let (ran, former) = (ran.reply(), Former::evaluation(&self.book).reply);
        let difference = || {
            let (run, evaluated) = (ran.result, former.result);
            let on = described(&self.book, self.label);
            format!("former code {run:?}, evaluated before {evaluated:?}, or their memories: {on}")
        };
        let agreed = (ran == former).then_some(()).ok_or_else(difference);
        tally.count("former code, as evaluated before", agreed);
    }
}

/// A generated book: each scope with a good list into memory of each length, and with a
/// bad list; and scopes that are not there.
fn compare_book(tally: &mut Tally, seed: u64) {
    let rng = &mut Random::new(seed);
    let draft = mix::some_book(rng);
    let label = format!("book of seed {seed}");
    let mut pair = Pair::of(tally, &draft.bytes(), &label);
    for (number, scope) in draft.scopes.iter().enumerate() {
        let types = &scope.variables;
        let exact = results_length(types);
        let good = inputs::good(rng, types);
        for room in [exact, exact.saturating_sub(1), exact + 7, 0] {
            pair.compare(tally, number, &good, room);
        }
        let way = rng.below(inputs::WAYS);
        let bad = inputs::bad(rng, types, way);
        pair.compare(tally, number, &bad, rng.below(exact + 2));
    }
    let count = draft.scopes.len();
    let absent = rng.pick(&[count + 1, 31, 32, 255, 256, 1 << 32, usize::MAX]);
    for number in [count, absent.max(count)] {
        pair.compare(tally, number, &damage::noise(rng), rng.below(40));
    }
}

/// A fixed case: its bytes as code, and the code of what is an accepted book.
fn compare_fixed(tally: &mut Tally, case: &Case) {
    compare(tally, case, case.label);
    if engine::judge(&case.bytes).is_ok() {
        let mut pair = Pair::of(tally, &case.bytes, case.label);
        pair.compare(tally, case.scope, &case.inputs, case.room);
    }
}

/// Code with a name: refused by both, for the cause that the name says.
fn compare_named(tally: &mut Tally, named: cases::named::Named) {
    let mut case = run_of(named.name, named.code);
    (case.scope, case.inputs, case.room) = (named.scope, named.inputs, 200);
    let (_, denial) = compare(tally, &case, named.name);
    let other = || format!("{}: {denial:?}, not {:?}", named.name, named.denial);
    let caused = (denial == Some(named.denial))
        .then_some(())
        .ok_or_else(other);
    tally.count(named.name, caused);
}

/// A megabyte of code, with the answer that is expected of it.
fn compare_long(tally: &mut Tally, case: &Case) {
    let label = format!("a megabyte, {}", case.label);
    let (ran, _) = compare(tally, case, &label);
    let other = || format!("{label}: {:?}, not {:?}", ran.answer, case.expected);
    let expected = case.is_expected(ran.answer.map(Success::Answer));
    tally.count(&label, expected.then_some(()).ok_or_else(other));
}

/// All fixed and named cases, a megabyte of code, `random` generated codes that no
/// compiler wrote and a fifth as many books; each answer, each cause, each case of the join,
/// each side of the range in each place and all that may become of an override must be met.
pub fn run(random: u64) -> bool {
    let mut tally = Tally::default();
    cases::named()
        .into_iter()
        .for_each(|named| compare_named(&mut tally, named));
    cases::fixed()
        .iter()
        .for_each(|case| compare_fixed(&mut tally, case));
    for case in cases::long() {
        compare_long(&mut tally, &case);
    }
    for seed in 0..random {
        let case = cases::foreign_code(seed);
        compare(&mut tally, &case, &format!("{} of seed {seed}", case.label));
    }
    (0..random / 5).for_each(|seed| compare_book(&mut tally, seed));
    OUTCOMES
        .iter()
        .for_each(|outcome| tally.expect_met(outcome));
    (13..=15).for_each(|refusal| tally.expect_met(&format!("refused {refusal}")));
    join_cases().for_each(|case| tally.expect_met(&joined(case)));
    for class in expected_leaving().concat() {
        tally.expect_met(&left(class));
    }
    for label in [EVALUATED, COMPILED, FORMER] {
        overriding::expect(&mut tally, label);
    }
    let faults = expected_code_faults().into_iter().map(Denial::BadCode);
    let stuck = expected_stuck().into_iter().map(Denial::Stuck);
    faults
        .chain(stuck)
        .for_each(|denial| tally.expect_met(&refused(denial)));
    tally.finish()
}
