//! Warnings: each with its place and an example, and no case that was overlooked.

use second::cases::books::any_book;
use second::cases::random::Random;
use second::value::{Type, Value};
use text::choices::{inputs_of, Choices};
use text::ending::{ending_of, Cause};
use text::evaluation::enter;
use text::printer::to_text;
use text::reading::to_rulebook;
use text::rulebook::Rulebook;
use text::search::{search, Found};
use text::warnings::check;

fn warned(text: &str) -> String {
    let book = to_rulebook(text).unwrap_or_else(|faults| panic!("{faults:?} in\n{text}"));
    let answer = check(&book, "f");
    let said = String::from_utf8(answer.bytes).expect("text");
    assert_eq!(answer.good, said.ends_with("\nno warnings\n"), "{said}");
    said
}

/// A scope with some variables, then `clauses` from line 2 on.
fn scope(clauses: &str) -> String {
    format!(
        "scope s variable x : number variable n : number variable a : yes/no variable b : yes/no\n{clauses}"
    )
}

/// The warnings about the scope are these.
fn warns(clauses: &str, expected: &[&str]) {
    let said = warned(&scope(clauses));
    let lines: Vec<&str> = said.lines().filter(|line| line.starts_with("f:")).collect();
    assert_eq!(lines, expected, "for\n{clauses}");
}

const USE: &str = "\nunused n = 1 and a and b";

#[test]
fn conflicts_to_come() {
    warns(
        &format!("define x under condition a as 1\ndefine x under condition b as 2\ndefine x under condition not a and not b as 3{USE}"),
        &["f:3:1: x can be in conflict: this definition and the definition at 2:1 both hold, for instance with n=0 a=yes b=yes"],
    );
    warns(
        &format!("define x under condition a as 1\ndefine x under condition not a as 2{USE}"),
        &[],
    );
    warns(
        &format!("label g define x as 1\nlabel p exception to g define x under condition n >= 80 as 2\nlabel q exception to g define x under condition n <= 80 and a as 3{USE}"),
        &["f:4:1: x can be in conflict: this exception 'q' and the exception 'p' at 3:1 both hold, for instance with n=80 a=yes b=no"],
    );
    warns(
        &format!("label g define x as 1\nexception to g define x under condition n > 80 as 2\nexception to g define x under condition n <= 80 as 3{USE}"),
        &[],
    );
}

#[test]
fn conflicts_that_are_only_possible() {
    let text = scope("variable m : number\nlabel g define x as 1\nexception to g define x under condition n + 7 = m + m as 2\nexception to g define x under condition n = m and a and b as 3");
    let said = warned(&text);
    assert!(
        said.starts_with("f:5:1: x may be in conflict: this exception and the exception at 4:1 possibly both hold; none of the "),
        "{said}"
    );
    let text = text.replace("n = m and a", "not n + 7 = m + m and n = m and a");
    assert!(!warned(&text).contains("conflict"));
}

#[test]
fn what_can_be_empty() {
    warns(
        &format!("define x under condition a as 1\ndefine x under condition not a and b as 2{USE}"),
        &["f:2:1: x can be empty: none of its definitions gives a value, for instance with n=0 a=no b=no"],
    );
    let said = warned(
        "scope s variable y : yes/no sub-scope k : t define y as k.z\nscope t variable z : yes/no variable w : yes/no rule z under condition w",
    );
    assert!(
        said.starts_with("f:1:39: k.w can be empty: it is not overridden, and nothing defines it, with no inputs\n"),
        "{said}"
    );
    warns(
        &format!("define x under condition n < 5 as default [1, if a then 2 else empty | yes : 3]\ndefine x under condition not n < 5 as n{USE}"),
        &["f:2:1: x can be in conflict: so is this definition by itself, for instance with n=0 a=yes b=no"],
    );
    warns(
        &format!("define x under condition n < 5 as if a then 2147483647 + 1 else -2147483648 - 1\ndefine x under condition not n < 5 as n{USE}"),
        &[
            "f:2:1: x can be above the range: so is this definition by itself, for instance with n=0 a=yes b=no",
            "f:2:1: x can be below the range: so is this definition by itself, for instance with n=0 a=no b=no",
        ],
    );
}

/// A caller that overrides what the called scope computes can make its rules meet.
#[test]
fn what_ends_only_in_a_call() {
    let text = "scope s variable x : number variable y : yes/no sub-scope k : t
define k.m as if y then 10 else 20
define x as k.n
scope t variable m : number variable n : number
define m as 1
label g define n as 0
exception to g define n under condition m < 15 as 1
exception to g define n under condition 5 < m as 2";
    let said = warned(text);
    assert!(
        said.starts_with("f:1:59: k.n can be in conflict: the exception at 8:1 and the exception at 7:1 both hold, for instance with y=yes\n"),
        "{said}"
    );
    assert!(said.contains("\n1 warning\n"), "{said}");
}

#[test]
fn what_is_unused_never_holds_or_repeats() {
    warns(
        "define x as 1 unused a and b",
        &["f:1:38: the variable 'n' is not used: nothing defines or reads it"],
    );
    warns(
        &format!("define x as 1\nexception define x under condition a and b and not a as 2{USE}"),
        &["f:3:1: this exception never holds, in none of the 12 cases"],
    );
    warns(
        &format!("define x as 1\nlabel e exception define x under condition n < 4 as 2\nexception to e define x under condition n <= 4 as 3{USE}"),
        &["f:3:1: this exception 'e' never holds, in none of the 24 cases"],
    );
    let said = warned(
        "scope s variable y : number sub-scope k : t define k.m as 2 + 1 define y as k.m\nscope t variable m : number define m as 3",
    );
    assert!(
        said.starts_with(
            "f:1:45: this override of k.m repeats scope t's own rule: it changes nothing\n"
        ),
        "{said}"
    );
}

/// A scope that overrides, and the scope `t` that it calls, from line 4 on.
fn overriding(clauses: &str, called: &str) -> String {
    warned(&format!(
        "scope s variable x : number variable a : yes/no variable b : yes/no sub-scope k : t
{clauses}
define x as if k.y or a or b then k.n else 1
scope t variable n : number variable y : yes/no
{called}"
    ))
}

/// The warnings about both are these.
fn warns_overriding(clauses: &str, called: &str, expected: &[&str]) {
    let said = overriding(clauses, called);
    let lines: Vec<&str> = said.lines().filter(|line| line.starts_with("f:")).collect();
    assert_eq!(lines, expected, "for\n{clauses}\n{called}");
}

/// An override that does not hold is the usual way to write, and no warning.
#[test]
fn overrides_that_fall_back() {
    let own = "define n as 4 rule y";
    warns_overriding("define k.n under condition a as 7", own, &[]);
    warns_overriding(
        "define k.n under condition a as 7",
        "rule y",
        &["f:2:1: k.n can be empty: no definition of its override holds, and scope t does not define it, for instance with a=no b=no"],
    );
    warns_overriding(
        "define k.n under condition a as 7 define k.y as no",
        "define n under condition y as 4 rule y",
        &["f:2:1: k.n can be empty: neither its override nor a definition of scope t gives a value, for instance with a=no b=no"],
    );
    warns_overriding(
        "define k.n under condition a as 7\nexception define k.n under condition b and not b as 8",
        own,
        &["f:3:1: this exception never holds, in none of the 4 cases"],
    );
}

#[test]
fn overrides_that_change_nothing() {
    let own = "define n as 4 rule y";
    let always = "f:2:1: this override of k.n always falls back to scope t: it gives no value in any of the 4 cases";
    for clauses in [
        "define k.n under condition a and not a as 7",
        "define k.n as if a then empty else default [ | a : 3]",
        "define k.n under condition empty as 3",
    ] {
        warns_overriding(clauses, own, &[always]);
    }
    let repeats = "f:2:1: this override of k.n repeats scope t's own rule: it changes nothing";
    for clauses in [
        "define k.n as 4",
        "define k.n under condition a as 4",
        "define k.n under condition a as 3 + 1",
    ] {
        warns_overriding(clauses, own, &[repeats]);
    }
}

#[test]
fn rules_that_hand_over_no() {
    warns_overriding(
        "rule k.y under condition a",
        "define n as 4 rule y",
        &["f:2:1: k.y is no where no rule of this override holds, though scope t says yes by itself, for instance with a=no b=no; rules do not fall back to scope t, definitions do"],
    );
    for clauses in [
        "define k.y under condition not a as no",
        "rule k.y under condition a rule not k.y under condition not a",
    ] {
        warns_overriding(clauses, "define n as 4 rule y", &[]);
    }
    warns_overriding("rule k.y under condition a", "define n as 4", &[]);
}

/// Where not all cases are tried, an override is possibly empty only if the called scope
/// does not define the variable.
#[test]
fn overrides_that_are_possibly_empty() {
    let clauses = "define k.n under condition x2 - 5 < 101 as 7 variable x2 : number";
    warns_overriding(clauses, "define n as 4 rule y", &[]);
    let said = overriding(clauses, "rule y");
    assert!(
        said.starts_with("f:2:1: k.n may be empty: possibly none of its definitions gives a value, and scope t does not define it; none of the "),
        "{said}"
    );
    let clauses = clauses.replace("- 5", "+ 5");
    let said = overriding(&clauses, "rule y");
    assert!(
        said.starts_with("f:2:1: k.n can be empty: no definition of"),
        "{said}"
    );
    assert!(said.contains("\n1 warning\n"), "{said}");
}

/// A run with random values for the inputs ends only as the search found.
fn look(book: &Rulebook, scope: usize, found: &[Found], rng: &mut Random) {
    let own = &book.scopes[scope];
    let mut given = vec![None; own.variables.len()];
    for input in inputs_of(own) {
        given[input] = Some(match own.variables[input] {
            Type::YesNo => Value::YesNo(rng.below(2) == 1),
            Type::Number => Value::Number(rng.below(40) as i32 - 20),
        });
    }
    let Some(ending) = ending_of(book, &enter(book, scope, given)) else {
        return;
    };
    if !matches!(ending.cause, Cause::Clause(..)) {
        let key = (ending.path.clone(), ending.scope, ending.cause);
        assert!(
            found[scope].endings.contains_key(&key),
            "overlooked: {ending:?}"
        );
    }
}

#[test]
fn nothing_is_overlooked_where_all_cases_were_tried() {
    let mut exact = 0;
    for seed in 0..400 {
        let mut rng = Random::new(seed);
        let bytes = any_book(&mut rng).bytes();
        if second::judge(&bytes).is_err() {
            continue;
        }
        let text = to_text(&bytes).expect("a sound book");
        let book = to_rulebook(&text).expect("a sound text");
        let mut scopes = 0..book.scopes.len();
        if scopes.any(|scope| Choices::of(&book, scope).count > 512) {
            continue;
        }
        let found: Vec<Found> = (0..book.scopes.len()).map(|s| search(&book, s)).collect();
        for scope in (0..found.len()).filter(|&scope| found[scope].exact) {
            exact += 1;
            (0..20).for_each(|_| look(&book, scope, &found, &mut rng));
        }
    }
    assert!(exact > 200, "{exact}");
}
