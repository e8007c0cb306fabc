//! What `text judge`, `text evaluate` and `text table` say of generated books, held to the
//! second program.

use crate::answers::{evaluate, judged, Outcome};
use crate::cases::{Cases, MOST};
use crate::evaluation::enter;
use crate::evaluator::Evaluator;
use crate::inputs::{input_records, Given};
use crate::library::TABULATE;
use crate::output::Answer;
use crate::overrides::count_fallbacks;
use crate::printer::to_text;
use crate::programs::find;
use crate::reading::to_rulebook;
use crate::rulebook::Rulebook;
use crate::tally::{Met, Tally};
use crate::words;
use second::answer;
use second::cases::books::{book, Plan};
use second::cases::mix::evaluation;
use second::cases::random::Random;
use second::cases::{self, Case};
use second::decode::MAX_VARIABLES;
use second::records::read_inputs;
use second::value::{Failure, Type, Value};

/// One table of so many varies as many variables as it may, the others so few at most; and
/// where still fewer vary, rulerun makes the table, too.
const FULL: u64 = 100;
const FEW: usize = 5;
const FEWEST: usize = 1;

/// Judges and evaluates `count` generated books by the proved programs, and makes tables of
/// as many by the engine's library.
pub fn compare(count: u64) -> Tally {
    let mut tally = Tally::default();
    let (mut evaluations, mut rows) = (Evaluations::default(), Met::default());
    let library = TABULATE.map(Evaluator::Library);
    if library.is_none() {
        let remedy = "run 'bash tools/build.sh', then build text again";
        let wrong = format!("tables: the engine's library is not linked: {remedy}");
        tally.count(Err(wrong));
    }
    for seed in 0..count {
        tally.count(compare_judging(&cases::case(seed).bytes));
        let rng = &mut Random::new(seed);
        tally.count(compare_evaluating(&evaluation(rng), &mut evaluations));
        if let Some(library) = &library {
            let few = rng.range(0, FEW);
            let most = if seed % FULL == 0 { MOST } else { few };
            tally.count(compare_table(library, most, rng, &mut rows));
        }
    }
    tally.met("evaluations", &evaluations.all);
    let fell_back = "evaluations in which an override fell back";
    tally.met(fell_back, &evaluations.fell_back);
    if library.is_some() {
        tally.met("rows of tables", &rows);
    }
    tally
}

/// How evaluations ended: all, and those in which an override fell back.
#[derive(Default)]
struct Evaluations {
    all: Met,
    fell_back: Met,
}

/// The answer begins as the second program's, and is good where that accepts.
fn compare_judging(book: &[u8]) -> Result<(), String> {
    let answer = judged(book, &[])?;
    let expected = match second::judge(book) {
        Ok(count) => format!("accepted, {count} "),
        Err(number) => format!("refused {number}, "),
    };
    begins(&answer, expected.starts_with("accepted"), &expected)
}

fn begins(answer: &Answer, good: bool, expected: &str) -> Result<(), String> {
    let text = String::from_utf8_lossy(&answer.bytes);
    let same = answer.good == good && text.starts_with(expected);
    let wrong = || format!("'{expected}' expected, found '{text}'");
    same.then_some(()).ok_or_else(wrong)
}

/// Values are the second program's, each under its name; so is the failure.
fn compare_evaluating(case: &Case, met: &mut Evaluations) -> Result<(), String> {
    let (book, scope) = (rulebook(&case.bytes)?, case.scope);
    let Some(types) = book.scopes.get(scope).map(|scope| &scope.variables) else {
        return Ok(());
    };
    let given = read(types, &case.inputs)?;
    let answer = evaluate(&book, "book", scope, given.clone())?;
    let expected = expected(&case.bytes, scope, types, &given)?;
    met.all.add(named(&expected));
    if count_fallbacks(&enter(&book, scope, given)) > 0 {
        met.fell_back.add(named(&expected));
    }
    match expected {
        Ok(values) => begins(&answer, true, &lines(&values)),
        Err(failure) => begins(&answer, false, &format!("{}: ", words::outcome(failure))),
    }
}

/// Every row of a table is the second program's evaluation of its choice, whatever order the
/// variables are named in.
fn compare_table(
    library: &Evaluator,
    most: usize,
    rng: &mut Random,
    met: &mut Met,
) -> Result<(), String> {
    let plan = Plan {
        variables: MAX_VARIABLES,
        ..Plan::tiny(rng)
    };
    let bytes = book(rng, plan).bytes();
    let book = rulebook(&bytes)?;
    let count = |scope: &usize| yes_no(&book.scopes[*scope].variables).len();
    let scope = (0..book.scopes.len()).max_by_key(count).unwrap_or(0);
    let types = &book.scopes[scope].variables;
    let cases = some_cases(types, most, rng);
    let found = library.outcomes(&book, scope, &cases)?;
    for (row, found) in cases.rows.iter().zip(&found) {
        let expected = expected(&bytes, scope, types, row)?;
        met.add(named(&expected));
        if *found != expected {
            return Err(format!("{row:?}: {expected:?} expected, found {found:?}"));
        }
    }
    let same = cases.varied.len() > FEWEST || {
        let rulerun = find("rulerun").map(Evaluator::Program)?;
        rulerun.outcomes(&book, scope, &cases)? == found
    };
    let wrong = || format!("rulerun makes another table of {bytes:02x?}");
    same.then_some(()).ok_or_else(wrong)
}

/// Yes/no variables vary, in any order and so many at most; some of the others are given.
fn some_cases(types: &[Type], most: usize, rng: &mut Random) -> Cases {
    let mut varied = yes_no(types);
    rng.shuffle(&mut varied);
    varied.truncate(most);
    let chance = rng.pick(&[0, 50, 100]);
    let value = |(v, of): (usize, &Type)| match of {
        _ if varied.contains(&v) || !rng.percent(chance) => None,
        Type::YesNo => Some(Value::YesNo(rng.percent(50))),
        Type::Number => Some(Value::Number(rng.number(20))),
    };
    let fixed = types.iter().enumerate().map(value).collect();
    Cases::varying(fixed, varied)
}

fn yes_no(types: &[Type]) -> Vec<usize> {
    let yes_no = |v: &usize| types[*v] == Type::YesNo;
    (0..types.len()).filter(yes_no).collect()
}

/// A book with the names that its text has.
fn rulebook(bytes: &[u8]) -> Result<Rulebook, String> {
    let text = to_text(bytes).map_err(|fault| fault.message)?;
    to_rulebook(&text).map_err(|faults| format!("{faults:?}"))
}

fn read(types: &[Type], records: &[u8]) -> Result<Given, String> {
    let mut values = vec![None; types.len()];
    let read = read_inputs(types, records, &mut values);
    read.map_err(|_| format!("bad records {records:02x?}"))?;
    Ok(values)
}

/// The second program's evaluation.
fn expected(bytes: &[u8], scope: usize, types: &[Type], given: &Given) -> Result<Outcome, String> {
    let mut results = [0; 6 * MAX_VARIABLES];
    let answer = second::evaluate(bytes, scope, &input_records(given), &mut results);
    let answer = answer.map_err(|number| format!("refused with {number}"))?;
    Ok(match answer.outcome {
        answer::Outcome::Values => {
            let values = read(types, &results[..answer.length])?;
            Ok(values.into_iter().flatten().collect())
        }
        answer::Outcome::Empty => Err(Failure::Empty),
        answer::Outcome::Conflict => Err(Failure::Conflict),
        answer::Outcome::Above => Err(Failure::Above),
        answer::Outcome::Below => Err(Failure::Below),
    })
}

/// The second program's name of an outcome.
fn named(outcome: &Outcome) -> answer::Outcome {
    match outcome {
        Ok(_) => answer::Outcome::Values,
        Err(failure) => answer::Outcome::from(*failure),
    }
}

/// `name = value` under the names that the printer makes.
fn lines(values: &[Value]) -> String {
    let values = values.iter().enumerate();
    let line = |(v, &value): (usize, &Value)| format!("v{v} = {}\n", words::value(value));
    values.map(line).collect()
}
