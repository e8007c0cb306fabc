//! The engine's library and the program rulerun make the same tables.

mod common;

use common::{project, stand_ins};
use second::decode::{decode, MAX_VARIABLES};
use second::records::results_length;
use text::cases::Cases;
use text::choices::Choices;
use text::evaluator::Evaluator;
use text::library::TABULATE;
use text::programs::find;
use text::reading::to_rulebook;
use text::rulebook::Rulebook;
use text::table::Table;

/// Stands in for the library: the second program's evaluation of every choice.
fn tabulate(book: &[u8], scope: usize, chosen: &[u8], inputs: &[u8]) -> Result<Vec<u8>, u8> {
    let length = results_length(&decode(book)?[scope].variables);
    let mut table = Vec::new();
    for choice in 0..1usize << chosen.len() {
        let mut inputs = inputs.to_vec();
        for (bit, &variable) in chosen.iter().rev().enumerate() {
            inputs.extend([1, variable, (choice >> bit & 1) as u8]);
        }
        let mut results = [0; 6 * MAX_VARIABLES];
        let answer = second::evaluate(book, scope, &inputs, &mut results)?;
        table.push(answer.outcome as u8);
        table.extend(&results[..length]);
    }
    Ok(table)
}

/// The stand-ins; where the library is linked, also that and the proved program.
fn evaluators() -> Vec<Evaluator> {
    let program = stand_ins().join("rulerun");
    let mut all = vec![Evaluator::Program(program), Evaluator::Library(tabulate)];
    if let Some(tabulate) = TABULATE {
        all.push(Evaluator::Library(tabulate));
        all.extend(find("rulerun").map(Evaluator::Program));
    }
    all
}

/// One table, whichever makes it.
fn one_table(book: &Rulebook, scope: usize, cases: impl Fn() -> Cases) -> String {
    let table = |by: &Evaluator| Table::of(by, book, scope, cases()).map(|table| table.csv());
    let tables: Result<Vec<String>, String> = evaluators().iter().map(table).collect();
    let tables = tables.expect("tables");
    assert!(tables.iter().all(|table| *table == tables[0]), "{tables:?}");
    tables[0].clone()
}

const LOAN: &str = "scope loan
  variable nitrate : yes/no
  variable fee : number
  variable days : number
  variable abroad : yes/no
  variable insured : yes/no
  define fee as days + 2_147_483_000
  exception define fee under condition nitrate and not abroad as 7
  rule insured under condition days > 30
  exception rule not insured under condition abroad";

fn loan() -> Rulebook {
    to_rulebook(LOAN).expect("a sound text")
}

#[test]
fn rows_stand_in_the_order_of_the_names() {
    let named = |words: &[&str]| {
        one_table(&loan(), 0, || {
            Cases::named(&loan(), 0, words).expect("cases")
        })
    };
    let expected = "\
abroad,nitrate,outcome,fee,insured
no,no,above the range,,
no,yes,values,7,yes
yes,no,above the range,,
yes,yes,above the range,,
";
    assert_eq!(named(&["abroad", "nitrate", "days=648"]), expected);
    let expected = "\
insured,nitrate,outcome,fee
no,no,empty,
no,yes,empty,
yes,no,empty,
yes,yes,empty,
";
    assert_eq!(named(&["insured", "nitrate", "days=1"]), expected);
    let sides = "scope s variable high : yes/no variable n : number variable x : number
  define x as if high then n + 2 else -n - 3";
    let sides = to_rulebook(sides).expect("a sound text");
    let cases = || Cases::named(&sides, 0, &["n=2147483646"]).expect("cases");
    let expected = "high,outcome,x\nno,below the range,\nyes,above the range,\n";
    assert_eq!(one_table(&sides, 0, cases), expected);
    let expected = "outcome,fee,insured\nvalues,2147483031,yes\n";
    let inputs = ["nitrate=no", "abroad=no", "days=31"];
    assert_eq!(named(&inputs), expected);
}

#[test]
fn numbers_vary_too() {
    let choices = Choices::of(&loan(), 0);
    let expected = "\
nitrate,days,abroad,outcome,fee,insured
no,30,no,values,2147483030,no
no,30,yes,values,2147483030,no
no,31,no,values,2147483031,yes
no,31,yes,values,2147483031,no
yes,30,no,values,7,no
yes,30,yes,values,2147483030,no
yes,31,no,values,7,yes
yes,31,yes,values,2147483031,no
";
    let cases = || Cases::of_choices(&loan(), 0, &choices);
    assert_eq!(one_table(&loan(), 0, cases), expected);
}

#[test]
fn the_examples_have_one_table_a_scope() {
    for name in ["vault", "climate", "loan"] {
        let text = std::fs::read_to_string(project(&format!("examples/{name}.rules")));
        let book = to_rulebook(&text.expect("an example")).expect("a sound text");
        for scope in 0..book.scopes.len() {
            one_table(&book, scope, || {
                Cases::named(&book, scope, &[]).expect("cases")
            });
        }
    }
}

#[test]
fn what_the_library_refuses_is_told() {
    let told = |by: Evaluator| {
        let cases = Cases::varying(vec![None; 5], vec![0]);
        by.outcomes(&loan(), 0, &cases).expect_err("no outcomes")
    };
    let expected =
        "scope loan: the engine's library refused 18, bad choice: more than 12 variables \
                    vary, or one is repeated, given, not yes/no or absent; please report it";
    assert_eq!(told(Evaluator::Library(|_, _, _, _| Err(18))), expected);
    let expected = "scope loan: the engine's library refused 14, bad input: the inputs do not fit \
                    the scope; please report it";
    assert_eq!(told(Evaluator::Library(|_, _, _, _| Err(14))), expected);
    let told_of = |length: usize| {
        format!("scope loan: the engine's library wrote {length} bytes that are no table; please report it")
    };
    let cut = Evaluator::Library(|_, _, _, _| Ok(vec![1; 43]));
    assert_eq!(told(cut), told_of(43));
    let strange = Evaluator::Library(|_, _, _, _| Ok(vec![9; 44]));
    assert_eq!(told(strange), told_of(44));
}
