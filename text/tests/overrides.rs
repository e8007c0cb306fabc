//! Overrides that do not hold: what is evaluated, explained and drawn, word for word.

use text::brief::explain_briefly;
use text::draw::Drawing;
use text::evaluation::enter;
use text::explain::explain;
use text::inputs::{read_inputs, Given};
use text::overrides::count_fallbacks;
use text::reading::to_rulebook;
use text::reason::why_failed;
use text::rulebook::Rulebook;

/// `k.a` falls back unless `y`, `k.b` unless `z`; scope t does not define `b`.
const TEXT: &str = "scope s
variable y : yes/no variable z : yes/no variable n : number sub-scope k : t
define k.a under condition y as 7
define k.b under condition z as 2 + 1
define n as k.a + k.b
scope t
variable a : number variable b : number
label usual define a as 4
exception define a under condition 5 < b as 9
";

fn asked(text: &str, inputs: &[&str]) -> (Rulebook, Given) {
    let book = to_rulebook(text).unwrap_or_else(|faults| panic!("{faults:?} in\n{text}"));
    let given = read_inputs(&book, 0, inputs).expect("inputs");
    (book, given)
}

fn explained(text: &str, inputs: &[&str]) -> String {
    let (book, given) = asked(text, inputs);
    explain(&book, "f", 0, given)
}

fn briefly(text: &str, inputs: &[&str]) -> String {
    let (book, given) = asked(text, inputs);
    explain_briefly(&book, "f", 0, given)
}

/// Why the run failed, after the outcome; the count of scopes, and of fallbacks.
fn failed(text: &str, inputs: &[&str]) -> (String, usize, usize) {
    let (book, given) = asked(text, inputs);
    let entry = enter(&book, 0, given);
    let why = why_failed(&book, "", &entry);
    (why, entry.count(), count_fallbacks(&entry))
}

#[test]
fn an_override_that_does_not_hold_falls_back() {
    let expected = "\
scope s, given y = no, z = yes
y = no, given
z = yes, given
call of k, scope t
  override k.a falls back to scope t, a = 4: no definition of the override held
    the definition at f:3:1: passed over, y is no
  override k.b = 3, by the definition at f:4:1
    the definition at f:4:1: held, z is yes, and says '2 + 1'
  b = 3, handed over
  a = 4, by the definition 'usual' at f:8:1
    the definition 'usual' at f:8:1: held, it has no condition, and says 4
      the exception at f:9:1: passed over, '5 < b' is no (b = 3)
n = 7, by the definition at f:5:1
  the definition at f:5:1: held, it has no condition, and says 'k.a + k.b' (k.a = 4, k.b = 3)
every variable has a value; scopes entered: 2
";
    assert_eq!(explained(TEXT, &["y=no", "z=yes"]), expected);
    let expected = "\
f: scope s, given y = no, z = yes
k: scope t
  k.a falls back to scope t, a = 4: no definition of the override held; the definition at 3:1 was passed over, y is no
  k.b = 3, by the definition at 4:1: z is yes; it says '2 + 1'
  a = 4, by the definition 'usual' at 8:1
by its one definition: n = 7
every variable has a value; scopes entered: 2
";
    assert_eq!(briefly(TEXT, &["y=no", "z=yes"]), expected);
}

/// Not read by the caller, and told all the same.
#[test]
fn what_an_override_fell_back_to_is_told() {
    let text = TEXT.replace("as k.a + k.b", "as k.b");
    let words = briefly(&text, &["y=no", "z=yes"]);
    assert!(
        words.contains("\n  a = 4, by the definition 'usual' at 8:1\n"),
        "{words}"
    );
    let words = briefly(&text, &["y=yes", "z=yes"]);
    assert!(
        words.contains("\n  k.a = 7, by the definition at 3:1: y is yes\n"),
        "{words}"
    );
    assert!(!words.contains("\n  a = "), "{words}");
}

#[test]
fn the_empty_part_of_an_override_is_named() {
    for (says, part) in [
        ("4 + empty", "'4 + empty number' is empty, since empty number is"),
        ("empty", "empty number is empty"),
        (
            "if y then 3 else -(empty)",
            "'if y then 3 else -empty number' is empty (y = no), since empty number is",
        ),
        (
            "4 + default [default [ | y : 1] | z : default [ | y : 2]]",
            "'4 + default [default [ | y : 1] | z : default [ | y : 2]]' is empty (y = no, z = yes), \
             since 'default [ | y : 2]' is",
        ),
        (
            "default [ | y and empty : 2]",
            "'default [ | y and empty yes/no : 2]' is empty (y = no), since empty yes/no is",
        ),
    ] {
        let text = TEXT.replace("under condition y as 7", &format!("as {says}"));
        let words = explained(&text, &["y=no", "z=yes"]);
        let expected = format!("  the definition at f:3:1: passed over, {part}\n");
        assert!(words.contains(&expected), "{words}");
        assert!(words.contains("falls back to scope t, a = 4: "), "{words}");
    }
    let text = TEXT.replace("condition y", "condition y = empty");
    let words = explained(&text, &["y=yes", "z=yes"]);
    let expected = "passed over, 'y = empty yes/no' is empty (y = yes), since empty yes/no is\n";
    assert!(words.contains(expected), "{words}");
}

#[test]
fn override_and_own_tree_are_empty() {
    let words = explained(TEXT, &["y=no", "z=no"]);
    let expected = "\
call of k, scope t
  override k.a falls back to scope t, which ends before a: no definition of the override held
    the definition at f:3:1: passed over, y is no
  override k.b falls back to scope t, where b is empty, too: no definition of the override held
    the definition at f:4:1: passed over, z is no
  b is empty: nothing defines it
  not reached: a
not reached: n
the run ends empty: something needed has no value; scopes entered: 2
";
    assert!(words.ends_with(expected), "{words}");
    let why = "k.b, since it is not given and scope t does not define it; \
               no definition of its override held; the definition at 4:1 was passed over, z is no";
    let expected = (why.to_string(), 2, 2);
    assert_eq!(failed(TEXT, &["y=no", "z=no"]), expected);
}

#[test]
fn conflict_above_and_below_still_end_the_run_before_the_entry() {
    for (says, outcome, why) in [
        (
            "conflict",
            "in conflict",
            "the definition at 4:1 is in conflict",
        ),
        (
            "2147483647 + 1",
            "above the range",
            "in the definition at 4:1 '2147483647 + 1' is above 2147483647",
        ),
        (
            "-2147483648 - 1",
            "below the range",
            "in the definition at 4:1 '-2147483648 - 1' is below -2147483648",
        ),
    ] {
        let text = TEXT.replace("as 2 + 1", &format!("as {says}"));
        let words = explained(&text, &["y=no", "z=yes"]);
        let fallen = "  override k.a falls back to scope t, which is not entered: no definition of the override held\n";
        assert!(words.contains(fallen), "{words}");
        let end = format!("the run ends {outcome}; scopes entered: 1\n");
        assert!(words.ends_with(&end), "{words}");
        let expected = (format!("k.b, since {why}"), 1, 1);
        assert_eq!(failed(&text, &["y=no", "z=yes"]), expected);
    }
}

#[test]
fn what_is_fallen_back_to_can_end_the_run() {
    let text = TEXT.replace("as 4", "as 4 + conflict");
    let words = explained(&text, &["y=no", "z=yes"]);
    assert!(
        words.contains("k.a falls back to scope t, where a is in conflict: no"),
        "{words}"
    );
    let why = "k.a, since the definition 'usual' at 8:1 is in conflict; \
               no definition of its override held; the definition at 3:1 was passed over, y is no";
    assert_eq!(failed(&text, &["y=no", "z=yes"]), (why.to_string(), 2, 1));
    let (why, count, fallbacks) = failed(&text, &["y=yes", "z=no"]);
    assert!(why.starts_with("k.b, since it is not given"), "{why}");
    assert_eq!((count, fallbacks), (2, 1));
}

#[test]
fn rules_hand_over_no_and_do_not_fall_back() {
    let text = "scope s variable y : yes/no variable r : yes/no sub-scope k : t
rule k.a under condition y
define r as k.a
scope t variable a : yes/no
define a as yes";
    let words = briefly(text, &["y=no"]);
    assert!(
        words.contains("\n  k.a = no, since no rule held\nby"),
        "{words}"
    );
    assert!(words.contains("r = no"), "{words}");
}

/// A call that is the same as one before says what fell back, too.
#[test]
fn calls_that_are_the_same() {
    let text = "scope s variable y : yes/no variable n : number sub-scope j : t sub-scope k : t
define k.a under condition y as 7
define n as j.a + k.a
scope t variable a : number
define a as 4";
    let expected = "\
f: scope s, given y = no
j: scope t
  by its one definition: a = 4
k: scope t, the same as j
  k.a falls back to scope t, a = 4: no definition of the override held; the definition at 2:1 was passed over, y is no
by its one definition: n = 8
every variable has a value; scopes entered: 3
";
    assert_eq!(briefly(text, &["y=no"]), expected);
}

fn drawn(target: &str, inputs: &[&str]) -> String {
    let (book, given) = asked(TEXT, inputs);
    let drawing = Drawing::of(&book, "f", 0, target).expect("a target");
    match inputs.is_empty() {
        true => drawing.plain(),
        false => drawing.with(given),
    }
}

/// Boxes, marked ones and grey ones.
fn boxes(svg: &str) -> (usize, usize, usize) {
    let count = |what: &str| svg.matches(what).count();
    (
        count("<rect x="),
        count("stroke=\"#1c6b1c\""),
        count("fill=\"white\" stroke=\"#bbb\""),
    )
}

#[test]
fn a_drawing_shows_what_an_override_fell_back_to() {
    let svg = drawn("k.a", &[]);
    assert!(
        svg.contains(">k.a in scope s, otherwise as scope t decides it, f<"),
        "{svg}"
    );
    assert_eq!(boxes(&svg), (1, 0, 0));
    let svg = drawn("k.a", &["y=yes", "z=yes"]);
    assert!(svg.contains(": k.a = 7<"), "{svg}");
    assert_eq!(boxes(&svg), (1, 1, 0));
    let svg = drawn("k.a", &["y=no", "z=yes"]);
    assert!(
        svg.contains(": k.a = 4, the override falls back to scope t<"),
        "{svg}"
    );
    assert!(svg.contains(">scope t decides it:<"), "{svg}");
    assert_eq!(boxes(&svg), (3, 1, 2));
    let svg = drawn("k.b", &["y=no", "z=no"]);
    assert!(
        svg.contains(": k.b is empty, the override falls back to scope t<"),
        "{svg}"
    );
    assert_eq!(boxes(&svg), (2, 0, 1));
    let svg = drawn("k.a", &["y=no", "z=no"]);
    assert!(
        svg.contains(": k.a is not reached, the override falls back to scope t<"),
        "{svg}"
    );
    assert_eq!(boxes(&svg), (1, 0, 1));
}
