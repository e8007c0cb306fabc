//! Explanations, word for word.

use text::brief::explain_briefly;
use text::explain::explain;
use text::inputs::read_inputs;
use text::reading::to_rulebook;

fn explained(text: &str, inputs: &[&str]) -> String {
    let book = to_rulebook(text).unwrap_or_else(|faults| panic!("{faults:?} in\n{text}"));
    let given = read_inputs(&book, 0, inputs).expect("inputs");
    explain(&book, "f", 0, given)
}

fn briefly(text: &str, inputs: &[&str]) -> String {
    let book = to_rulebook(text).unwrap_or_else(|faults| panic!("{faults:?} in\n{text}"));
    let given = read_inputs(&book, 0, inputs).expect("inputs");
    explain_briefly(&book, "f", 0, given)
}

const FILM: &str = "scope film
variable speed : number
variable shrunken : yes/no
variable polyester : yes/no
label general
define speed as 4
label gentle
exception to general
define speed under condition shrunken as 2 + 0
exception to gentle
define speed under condition shrunken and polyester as 4
";

#[test]
fn the_clause_that_held_and_those_passed_over() {
    let expected = "\
scope film, given shrunken = yes, polyester = no
shrunken = yes, given
polyester = no, given
speed = 2, by the exception 'gentle' at f:7:1
  the definition 'general' at f:5:1: passed over, its exception 'gentle' at f:7:1 gave the value
    the exception 'gentle' at f:7:1: held, shrunken is yes, and says '2 + 0'
      the exception at f:10:1: passed over, 'shrunken and polyester' is no (shrunken = yes, polyester = no)
every variable has a value; scopes entered: 1
";
    assert_eq!(explained(FILM, &["shrunken=yes", "polyester=no"]), expected);
}

#[test]
fn a_variable_that_nothing_defines() {
    let expected = "\
scope film, given shrunken = yes
shrunken = yes, given
polyester is empty: nothing defines it
not reached: speed
the run ends empty: something needed has no value; scopes entered: 1
";
    assert_eq!(explained(FILM, &["shrunken=yes"]), expected);
}

#[test]
fn a_conflict_names_both_clauses() {
    let text = "scope s variable x : number
define x as 1
exception define x under condition yes as empty
label b define x as 2
label c exception to b define x under condition 1 = 1 as 3
define x as 4";
    let expected = "\
scope s, nothing given
x is in conflict: the definition at f:2:1 and the exception 'c' at f:5:1 both held
  the definition at f:2:1: held, it has no condition, and says 1
    the exception at f:3:1: passed over, empty number is empty
  the definition 'b' at f:4:1: passed over, its exception 'c' at f:5:1 gave the value
    the exception 'c' at f:5:1: held, '1 = 1' is yes, and says 3
  the definition at f:6:1: held, it has no condition, and says 4
the run ends in conflict; scopes entered: 1
";
    assert_eq!(explained(text, &[]), expected);
}

#[test]
fn rules_that_do_not_hold_and_one_that_ends_the_search() {
    let text = "scope s variable y : yes/no variable z : yes/no
rule y under condition empty
rule z under condition 0 < -(-2147483648)
rule z";
    let expected = "\
scope s, nothing given
y = no, since no rule held
  the rule at f:2:1: passed over, empty yes/no is empty
z is above the range: so is the rule at f:3:1
  the rule at f:3:1: above the range, '--2147483648' is above 2147483647
  the rule at f:4:1: not tried, the one before ended the search
the run ends above the range; scopes entered: 1
";
    assert_eq!(explained(text, &[]), expected);
}

#[test]
fn an_exception_below_the_range_ends_its_clause() {
    let text = "scope s variable n : number variable x : number
define x as 1
exception define x under condition n < 0 as if n < -5 then n - 2147483647 - 9 else 0";
    let expected = "\
scope s, given n = -6
n = -6, given
x is below the range: so is the exception at f:3:1
  the definition at f:2:1: below the range, so is its exception at f:3:1
    the exception at f:3:1: below the range, 'n - 2147483647' is below -2147483648 (n = -6)
the run ends below the range; scopes entered: 1
";
    assert_eq!(explained(text, &["n=-6"]), expected);
    let expected = "\
f: scope s, given n = -6
x is below the range: in the exception at 3:1 'n - 2147483647' is below -2147483648 (n = -6)
the run ends below the range; scopes entered: 1
";
    assert_eq!(briefly(text, &["n=-6"]), expected);
}

#[test]
fn calls_with_overrides() {
    let text = "scope s variable n : number sub-scope k : t
define k.a as 3
define n as k.b + 1
scope t variable a : number variable b : number
define a as 1
define b under condition 5 < a as 9
exception define b under condition a < 5 as a";
    let expected = "\
scope s, nothing given
call of k, scope t
  override k.a = 3, by the definition at f:2:1
    the definition at f:2:1: held, it has no condition, and says 3
  a = 3, handed over
  b = 3, by the exception at f:7:1
    the definition at f:6:1: passed over, its exception at f:7:1 gave the value
      the exception at f:7:1: held, 'a < 5' is yes (a = 3), and says a
n = 4, by the definition at f:3:1
  the definition at f:3:1: held, it has no condition, and says 'k.b + 1' (k.b = 3)
every variable has a value; scopes entered: 2
";
    assert_eq!(explained(text, &[]), expected);
}

#[test]
fn conditions_are_shown_as_written() {
    let text = "scope s variable n : number variable y : yes/no
define y under condition n >= 80 or (n <> 3 and 5 > n) as n <= 7 or n + 1 > 9";
    let words = explained(text, &["n=4"]);
    assert!(
        words.contains("'n >= 80 or n <> 3 and 5 > n' is yes (n = 4)"),
        "{words}"
    );
    assert!(words.contains("says 'n <= 7 or n + 1 > 9'"), "{words}");
}

#[test]
fn briefly_what_decided() {
    let expected = "\
f: scope film, given shrunken = yes, polyester = no
speed = 2, by the exception 'gentle' at 7:1: shrunken is yes; it says '2 + 0'
every variable has a value; scopes entered: 1
";
    assert_eq!(briefly(FILM, &["shrunken=yes", "polyester=no"]), expected);
    let expected = "\
f: scope film, given shrunken = no
polyester is empty: nothing defines it
the run ends empty: something needed has no value; scopes entered: 1
";
    assert_eq!(briefly(FILM, &["shrunken=no"]), expected);
}

#[test]
fn briefly_calls_hand_on_and_repeat() {
    let text = "scope s variable y : yes/no variable z : yes/no variable n : number
sub-scope k : t sub-scope l : t sub-scope m : t
define k.a as y define l.a as y
define m.a under condition y as z
define m.a under condition not y as y
define n as k.b + l.b + m.b
scope t variable a : yes/no variable b : number variable c : number
define b as 1
exception define b under condition a as 2
define c as 3";
    let expected = "\
f: scope s, given y = yes, z = no
k: scope t, with a = yes
  b = 2, by the exception at 9:1: a is yes
l: scope t, with a = yes, the same as k
m: scope t
  m.a = no, by the definition at 4:1: y is yes
  b = 1, by the definition at 8:1
by its one definition: n = 5
every variable has a value; scopes entered: 4
";
    assert_eq!(briefly(text, &["y=yes", "z=no"]), expected);
}

#[test]
fn briefly_a_failure_below_a_call() {
    let text = "scope s variable y : yes/no sub-scope k : t define y as k.z
scope t variable z : yes/no variable w : yes/no
rule w rule z under condition w rule z";
    let expected = "\
f: scope s, nothing given
k: scope t
  z is in conflict: the rule at 3:8 and the rule at 3:33 both held
the run ends in conflict; scopes entered: 2
";
    assert_eq!(briefly(text, &[]), expected);
}

#[test]
fn briefly_why_nothing_held() {
    let text = "scope s variable n : number variable y : yes/no variable x : number
define x under condition y and n >= 18 as 1
define x under condition n < 5 as 2";
    let expected = "\
f: scope s, given n = 17, y = yes
x is empty: no definition held; the definition at 2:1 was passed over, 'y and n >= 18' is no \
(y = yes, n = 17); the definition at 3:1 was passed over, 'n < 5' is no (n = 17)
the run ends empty: something needed has no value; scopes entered: 1
";
    assert_eq!(briefly(text, &["n=17", "y=yes"]), expected);
}
