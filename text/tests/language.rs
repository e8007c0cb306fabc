//! What texts mean: bytes, precedence, and the specification's own examples.

use second::rulerun::rulerun;
use text::inputs::{find_scope, read_inputs, standard_input};
use text::printer::to_text;
use text::reading::{to_book, to_rulebook};

fn book(text: &str) -> Vec<u8> {
    to_book(text).unwrap_or_else(|faults| panic!("{faults:?} in\n{text}"))
}

/// What rulerun prints for scope `s` of a text, lines joined.
fn answer(text: &str, inputs: &[&str]) -> String {
    let book = to_rulebook(text).unwrap_or_else(|faults| panic!("{faults:?} in\n{text}"));
    let scope = find_scope(&book, "s").expect("scope s");
    let given = read_inputs(&book, scope, inputs).expect("inputs");
    let printed = rulerun(&standard_input(&book, scope, &given));
    printed.trim_end().replace('\n', " / ")
}

#[test]
fn the_book_of_the_specification() {
    let text = "scope s
  variable speed : number   variable shrunken : yes/no
  define speed as 4559808
  exception define speed under condition shrunken as 2279904";
    let bytes = [
        0x01, 0x02, 0x02, 0x02, 0x01, 0x05, 0x00, 0x45, 0x93, 0xc0, 0x06, 0x01, 0x05, 0x00, 0x22,
        0xc9, 0xe0, 0x13, 0xff, 0x00, 0xff, 0xff, 0x00, 0x13, 0xff, 0x00, 0x00, 0x01, 0x02,
    ];
    assert_eq!(book(text), bytes);
    assert_eq!(
        answer(text, &["shrunken=yes"]),
        "value 1 / 0 2279904 / 1 yes"
    );
    assert_eq!(answer(text, &[]), "empty 1");
}

#[test]
fn the_trial_strips() {
    let strips = [
        ("default [ | yes : 5]", "value 1 / 0 5"),
        ("default [ | no : 5]", "empty 1"),
        ("default [7 | no : 5]", "value 1 / 0 7"),
        ("default [empty, 7 | yes : 5]", "value 1 / 0 7"),
        ("default [7, 7 | yes : 5]", "conflict 1"),
        ("default [empty | empty : 5]", "empty 1"),
        ("default [default [ | no : 1] | yes : 2]", "value 1 / 0 2"),
        ("default [conflict, 2147483647 + 1 | yes : 5]", "conflict 1"),
        ("default [1, 2, 2147483647 + 1 | yes : 5]", "above 1"),
        ("empty + conflict", "empty 1"),
        ("conflict + empty", "conflict 1"),
        ("-(-2147483648)", "above 1"),
        ("(2147483647 - 1) + 1", "value 1 / 0 2147483647"),
        ("default [none, 7 | yes : 5]", "value 1 / 0 7"),
    ];
    for (strip, expected) in strips {
        let text = format!("scope s variable x : number define x as {strip}");
        assert_eq!(answer(&text, &[]), expected, "{strip}");
    }
    let given = answer("scope s variable x : number define x as conflict", &["x=9"]);
    assert_eq!(given, "value 1 / 0 9");
}

/// Both expressions have the same nodes.
fn same(a: &str, b: &str) {
    let text = |expression: &str| {
        let variables = "variable a : number variable y : yes/no variable z : yes/no";
        format!("scope s {variables} unused {expression}")
    };
    assert_eq!(book(&text(a)), book(&text(b)), "{a} and {b}");
}

#[test]
fn precedence() {
    same("a - 1 - 2", "(a - 1) - 2");
    same("a - 1 + 2", "(a - 1) + 2");
    same("-a + 1", "(-a) + 1");
    same("--a", "-(-a)");
    same("a + 1 < a - 2", "(a + 1) < (a - 2)");
    same("not a < 1", "not (a < 1)");
    same("not y and z", "(not y) and z");
    same("not y = z", "not (y = z)");
    same("y and z and y", "(y and z) and y");
    same("y and a = 1 and z", "(y and (a = 1)) and z");
    same("y and not not z", "y and (not (not z))");
    same(
        "if y then a else if z then 1 else 2 + a",
        "if y then a else (if z then 1 else (2 + a))",
    );
}

#[test]
fn signs_that_stand_for_several_nodes() {
    same("a > 1", "1 < a");
    same("a + 2 > 1 - a", "1 - a < a + 2");
    same("a <= 1", "not (1 < a)");
    same("a >= 1", "not (a < 1)");
    same("a <> 1", "not (a = 1)");
    same("y <> z", "not (y = z)");
    same("y or z", "not (not y and not z)");
    same("y or z or y", "(y or z) or y");
    same("y or z and y", "y or (z and y)");
    same("not y or z", "(not y) or z");
    same("not a > 1", "not (1 < a)");
    same("y or a >= 80 and z", "y or ((not (a < 80)) and z)");
    same(
        "(if y or z then a else 1) > -a",
        "-a < (if not (not y and not z) then a else 1)",
    );
    same(
        "default [y, none, z | a > 1 : y] <> y",
        "not (default [y, none, z | 1 < a : y] = y)",
    );
}

/// Each sign decides as its words say, at and on both sides of the threshold.
#[test]
fn thresholds_stay_where_they_are_written() {
    let table = [
        ("n > 80", [false, false, true]),
        ("n >= 80", [false, true, true]),
        ("n < 80", [true, false, false]),
        ("n <= 80", [true, true, false]),
        ("n = 80", [false, true, false]),
        ("n <> 80", [true, false, true]),
        ("n < 80 or n > 80", [true, false, true]),
    ];
    for (condition, expected) in table {
        let text =
            format!("scope s variable n : number variable y : yes/no define y as {condition}");
        for (n, expected) in [79, 80, 81].into_iter().zip(expected) {
            let word = if expected { "yes" } else { "no" };
            let printed = format!("value 1 / 0 {n} / 1 {word}");
            assert_eq!(answer(&text, &[&format!("n={n}")]), printed, "{condition}");
        }
    }
}

#[test]
fn a_negative_number_is_no_negated_one() {
    let text = |e: &str| format!("scope s variable x : number define x as {e}");
    assert_ne!(book(&text("-5")), book(&text("-(5)")));
    assert_eq!(book(&text("-5")), book(&text("- 5")));
    assert_eq!(answer(&text("3 -5"), &[]), "value 1 / 0 -2");
    assert_eq!(answer(&text("-2147483648"), &[]), "value 1 / 0 -2147483648");
}

#[test]
fn types_of_empty_and_conflict_come_from_their_place() {
    let text = |e: &str| format!("scope s variable x : number variable y : yes/no unused {e}");
    for (bare, typed) in [
        ("empty + 1", "empty number + 1"),
        ("y and conflict", "y and conflict yes/no"),
        ("empty = y", "empty yes/no = y"),
        ("x = conflict", "x = conflict number"),
        (
            "if empty then empty else x",
            "if empty yes/no then empty number else x",
        ),
        (
            "default [empty, x | empty : conflict]",
            "default [empty number, x | empty yes/no : conflict number]",
        ),
        ("-empty", "-empty number"),
    ] {
        assert_eq!(book(&text(bare)), book(&text(typed)), "{bare}");
    }
}

#[test]
fn declarations_may_follow_their_use() {
    let late = "scope s define x as 1 define k.z as yes variable x : number sub-scope k : t scope t variable z : yes/no";
    let early = "scope s variable x : number sub-scope k : t define x as 1 define k.z as yes scope t variable z : yes/no";
    assert_eq!(book(late), book(early));
}

#[test]
fn blanks_and_comments_only_separate() {
    let plain = "scope s variable x : number define x as 1 + 2";
    let spread = "\u{feff}scope s # one\r\n\tvariable x:number\r\n define x as\n1+2#two";
    assert_eq!(book(plain), book(spread));
}

#[test]
fn printed_text_is_plain() {
    let bytes = book(
        "scope film variable speed : number variable shrunken : yes/no sub-scope store : bin
      label usual define speed as 4
      exception to usual define speed under condition shrunken as -(2) + store.low
      exception to usual define speed under condition store.dry as default [ none, 1 | yes : 2 ]
      rule not store.dry under condition shrunken
      scope bin variable low : number variable dry : yes/no",
    );
    let expected = "\
scope scope0
  variable v0 : number
  variable v1 : yes/no
  sub-scope s0 : scope1

  label c0
  define v0 as 4

  exception
  define v0 under condition v1 as -(2) + s0.v0

  exception to c0
  define v0 under condition s0.v1 as default [none, 1 | yes : 2]

  rule not s0.v1 under condition v1

scope scope1
  variable v0 : number
  variable v1 : yes/no
";
    assert_eq!(to_text(&bytes), Ok(expected.to_string()));
}

#[test]
fn numbers_are_fixed_only_where_the_order_is_unusual() {
    // 5 - 7 with the right operand first, and a dead node between.
    let bytes = [
        1, 2, 2, 5, 0, 0, 0, 7, 4, 1, 5, 0, 0, 0, 5, 14, 2, 0, 19, 255, 0, 255, 255, 3,
    ];
    let text = to_text(&bytes).expect("a sound book");
    assert!(text.contains("unused yes"), "{text}");
    assert!(text.contains("define v0 as 5 - @0 7"), "{text}");
    assert_eq!(book(&text), bytes);
}

#[test]
fn a_refused_book_is_plain_records() {
    let bytes = [1, 4, 1, 12, 0, 0];
    let text = to_text(&bytes).expect("sound records");
    let expected = "# The judge refuses this book: a node is named more than once (number 7).
record 1
record 4 1
record 12 0 0
";
    assert_eq!(text, expected);
    assert_eq!(book(&text), bytes);
}

#[test]
fn unsound_records_have_no_text() {
    for bytes in [&[0][..], &[1, 2], &[2, 1], &[1, 2, 9]] {
        assert!(to_text(bytes).is_err(), "{bytes:?}");
    }
}

#[test]
fn inputs() {
    let text = "scope s variable x : number variable y : yes/no";
    let book = to_rulebook(text).expect("a sound text");
    let wrong = |word: &str| read_inputs(&book, 0, &[word]).expect_err("a bad input");
    assert_eq!(wrong("x"), "input 'x': write it as name=value");
    assert_eq!(
        wrong("z=1"),
        "input 'z=1': there is no variable 'z' in scope 's'"
    );
    let range = "is no number from -2147483648 to 2147483647";
    assert_eq!(wrong("x=yes"), format!("input 'x=yes': 'yes' {range}"));
    assert_eq!(
        wrong("x=2147483648"),
        format!("input 'x=2147483648': '2147483648' {range}")
    );
    assert_eq!(wrong("y=1"), "input 'y=1': '1' is neither yes nor no");
    assert_eq!(
        wrong("y=True"),
        "input 'y=True': 'True' is neither yes nor no; write 'yes'"
    );
    let twice = read_inputs(&book, 0, &["x=1", "x=1"]).expect_err("twice");
    assert_eq!(twice, "input 'x=1': this variable is given twice");
    let given = read_inputs(&book, 0, &["y=no", "x=-2"]).expect("inputs");
    let bytes = [0, 5, 1, 2, 2, 2, 1, 0, 2, 0, 255, 255, 255, 254, 1, 1, 0];
    assert_eq!(standard_input(&book, 0, &given), bytes);
    assert!(find_scope(&book, "t").is_err());
}
