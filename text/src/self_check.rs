//! The check: generated books, fixed cases and examples go there and back, and what
//! an explanation says came out is what the second program's evaluation gives.

use crate::brief::explain_briefly;
use crate::damage::{damaged, is_book_or_placed};
use crate::draw::Drawing;
use crate::evaluation::{enter, Joined, Taken, Tree};
use crate::examples::{run_examples, Program};
use crate::explain::explain;
use crate::files::{read_text, rule_files};
use crate::inputs::{input_records, Given};
use crate::locate::located;
use crate::overrides::{count_fallbacks, Fallback};
use crate::printer::to_text;
use crate::reading::{to_book, to_rulebook};
use crate::roundtrip::{book_survives, fault_is_placed, text_survives};
use crate::rulebook::Rulebook;
use crate::tally::{Met, Tally};
use second::answer::Outcome;
use second::cases::books::any_book;
use second::cases::mix::evaluation;
use second::cases::random::Random;
use second::cases::{self, Case, Service};
use second::decode::{decode, MAX_VARIABLES};
use second::kind::NONE;
use second::records::read_inputs;
use second::scope::{Clause, Target};
use std::collections::BTreeMap;

/// Refusals that a text in the language can have.
const PLACED: std::ops::RangeInclusive<u8> = 8..=12;

struct Check {
    tally: Tally,
    /// How many books of each refusal went there and back; 0 for accepted ones.
    met: BTreeMap<u8, usize>,
    /// How the evaluations that were explained ended, and in how many of them overrides
    /// fell back.
    ended: Met,
    fell_back: Met,
    /// Damaged texts that are books all the same, and those with faults.
    whole: usize,
    faulty: usize,
}

/// Round trips of `count` random books and `count` random cases, of all fixed cases and
/// of the examples in a folder; `count` evaluations and those of the fixed cases, explained
/// and drawn, and `count` damaged texts.
pub fn self_check(count: u64, folder: &str) -> Result<Tally, String> {
    let mut check = Check {
        tally: run_examples(Program::Second, folder)?,
        met: BTreeMap::new(),
        ended: Met::default(),
        fell_back: Met::default(),
        whole: 0,
        faulty: 0,
    };
    for file in rule_files(folder)? {
        check.example(&read_text(&file)?);
    }
    for seed in 0..count {
        check.book(&any_book(&mut Random::new(seed)).bytes());
        check.book(&cases::case(seed).bytes);
        check.evaluation(&evaluation(&mut Random::new(seed)));
        check.damage(&mut Random::new(seed));
    }
    for case in cases::fixed() {
        check.book(&case.bytes);
        if case.service == Service::Evaluate && case.reply().result.is_ok() {
            check.evaluation(&case);
        }
    }
    check.all_met();
    Ok(check.tally)
}

impl Check {
    fn example(&mut self, text: &str) {
        match to_book(text) {
            Ok(bytes) => self.book(&bytes),
            Err(_) => self.tally.count(Err("an example is no book".to_string())),
        }
    }

    /// Bytes that are no sound records have no text.
    fn book(&mut self, bytes: &[u8]) {
        if decode(bytes).is_err() {
            let refused = to_text(bytes).is_err();
            let wrong = || format!("{bytes:02x?} has a text");
            return self.tally.count(refused.then_some(()).ok_or_else(wrong));
        }
        let refusal = second::judge(bytes).err().unwrap_or(0);
        if refusal != 0 {
            let wrong = || format!("no place of fault {refusal} in {bytes:02x?}");
            let placed = located(bytes, refusal).map(|_| ());
            self.tally.count(placed.ok_or_else(wrong));
        }
        *self.met.entry(refusal).or_default() += 1;
        self.tally.count(book_survives(bytes));
        if PLACED.contains(&refusal) {
            self.tally.count(fault_is_placed(bytes, refusal));
        }
    }

    /// An accepted book explained for some inputs, and drawn.
    fn evaluation(&mut self, case: &Case) {
        let text = to_text(&case.bytes).map_err(|fault| vec![fault]);
        match text.and_then(|text| to_rulebook(&text)) {
            Err(faults) => self.tally.count(Err(format!("{faults:?}"))),
            Ok(book) => {
                let ended = explained(&book, case);
                for &(outcome, fallbacks) in ended.iter().flatten() {
                    self.ended.add(outcome);
                    if fallbacks > 0 {
                        self.fell_back.add(outcome);
                    }
                }
                self.tally.count(ended.map(|_| ()));
                self.tally.count(drawn(&book, case.scope));
                self.tally.count(marked(&book, case));
            }
        }
    }

    /// A damaged text of a random book.
    fn damage(&mut self, rng: &mut Random) {
        let text = to_text(&any_book(rng).bytes()).unwrap_or_default();
        let result = is_book_or_placed(&damaged(rng, &text));
        match result {
            Ok(true) => self.whole += 1,
            Ok(false) => self.faulty += 1,
            Err(_) => {}
        }
        self.tally.count(result.map(|_| ()));
    }

    /// Accepted books, each refusal from 6 to 12 and each outcome must have been met.
    fn all_met(&mut self) {
        for refusal in std::iter::once(0).chain(6..=12) {
            let times = self.met.get(&refusal).copied().unwrap_or(0);
            self.tally.say(match refusal {
                0 => format!("accepted books: {times}"),
                number => format!("books refused with {number}: {times}"),
            });
            let wrong = || format!("no book with refusal {refusal} was met");
            self.tally
                .count((times > 0).then_some(()).ok_or_else(wrong));
        }
        self.tally.met("explained evaluations", &self.ended);
        let fell_back = "explained evaluations in which an override fell back";
        self.tally.met(fell_back, &self.fell_back);
        self.tally.say(format!(
            "damaged texts: {} books, {} with faults",
            self.whole, self.faulty
        ));
        self.tally.count(text_survives(""));
    }
}

/// The inputs of a case, for a scope that is there.
fn given_in(book: &Rulebook, case: &Case) -> Result<Option<Given>, String> {
    let Some(scope) = book.scopes.get(case.scope) else {
        return Ok(None);
    };
    let mut given = vec![None; scope.variables.len()];
    let read = read_inputs(&scope.variables, &case.inputs, &mut given);
    read.map_err(|_| "bad inputs".to_string())?;
    Ok(Some(given))
}

/// In a drawing with inputs one box is marked where one clause gave the value.
fn marked(book: &Rulebook, case: &Case) -> Result<(), String> {
    let Some(given) = given_in(book, case)? else {
        return Ok(());
    };
    for taken in &enter(book, case.scope, given.clone()).taken {
        for (target, decided) in decided_by(taken) {
            let drawing = Drawing {
                book,
                file: "book",
                scope: case.scope,
                target,
            };
            let svg = drawing.with(given.clone());
            let held = svg.matches("stroke=\"#1c6b1c\"").count();
            let one = |tree: &Tree| matches!(tree.bases.joined, Joined::One(_));
            let has_value = |tree: &&Tree| one(tree) && tree.result.is_ok();
            if held != usize::from(decided.filter(has_value).is_some()) {
                return Err(format!("{held} boxes are marked in\n{svg}"));
            }
        }
    }
    Ok(())
}

/// The targets of a step, each with the tree that decided it: of an override that fell
/// back the called scope's, where that was reached.
fn decided_by(taken: &Taken) -> Vec<(Target, Option<&Tree>)> {
    match taken {
        Taken::Given(..) => Vec::new(),
        Taken::Variable(tree) => vec![(tree.target, Some(tree))],
        Taken::Call(_, overrides, called) => {
            let decided = |tree| match Fallback::of(tree, called.as_ref()) {
                None => Some(tree),
                Some(Fallback::Own(own)) => Some(own),
                Some(Fallback::NotEntered | Fallback::NotReached) => None,
            };
            let trees = overrides.iter();
            trees.map(|tree| (tree.target, decided(tree))).collect()
        }
    }
}

/// Outcome, count and results of an explained evaluation are the second program's; so many
/// overrides are said to fall back. The outcome and their number, if the scope is there.
fn explained(book: &Rulebook, case: &Case) -> Result<Option<(Outcome, usize)>, String> {
    let Some(given) = given_in(book, case)? else {
        return Ok(None);
    };
    let words = explain(book, "book", case.scope, given.clone());
    let brief = explain_briefly(book, "book", case.scope, given.clone());
    let entry = enter(book, case.scope, given);
    let mut results = [0; 6 * MAX_VARIABLES];
    let answer = second::evaluate(&case.bytes, case.scope, &case.inputs, &mut results);
    let answer = answer.map_err(|number| format!("refused with {number}"))?;
    let outcome = entry.failure.map_or(Outcome::Values, Outcome::from);
    let written = match entry.failure {
        None => input_records(&entry.values),
        Some(_) => Vec::new(),
    };
    let fallbacks = count_fallbacks(&entry);
    let same = (outcome, entry.count()) == (answer.outcome, answer.count)
        && words.matches(" falls back to scope ").count() == fallbacks
        && written == results[..answer.length]
        && words.ends_with(&format!("; scopes entered: {}\n", answer.count))
        && brief.lines().last() == words.lines().last();
    let wrong = || format!("{answer:?} and results {results:02x?}, explained as\n{words}");
    same.then_some(Some((outcome, fallbacks))).ok_or_else(wrong)
}

/// The drawing of each own variable has a box for each of its clauses, and one more
/// where several hang below it.
fn drawn(book: &Rulebook, scope: usize) -> Result<(), String> {
    let Some(own) = book.scopes.get(scope) else {
        return Ok(());
    };
    for (variable, name) in (0u8..).zip(&book.names[scope].variables) {
        let svg = Drawing::of(book, "book", scope, &name.text)?.plain();
        let is_own =
            |clause: &&Clause| clause.target.subscope == NONE && clause.target.variable == variable;
        let clauses = own.clauses.iter().filter(is_own);
        let bases = clauses
            .clone()
            .filter(|clause| clause.parent == NONE)
            .count();
        let rules = clauses.clone().any(|clause| clause.is_rule());
        let boxes = clauses.count() + usize::from(bases != 1 || rules);
        let (painted, lines) = (
            svg.matches("<rect x=").count(),
            svg.matches("<path").count(),
        );
        if (painted, lines) != (boxes, boxes - 1) {
            return Err(format!(
                "{painted} boxes and {lines} lines for {boxes} in\n{svg}"
            ));
        }
    }
    Ok(())
}
