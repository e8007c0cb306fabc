//! Results above and below the range: on which side, wherever the operation stands.

use second::rulerun::rulerun;
use text::brief::explain_briefly;
use text::explain::explain;
use text::inputs::standard_input;
use text::reading::to_rulebook;

/// What `text` explains of the first scope of a text, in full and briefly, and what rulerun
/// prints of it.
fn evaluated(text: &str) -> [String; 3] {
    let book = to_rulebook(text).unwrap_or_else(|faults| panic!("{faults:?} in\n{text}"));
    let given = vec![None; book.scopes[0].variables.len()];
    [
        explain(&book, "f", 0, given.clone()),
        explain_briefly(&book, "f", 0, given.clone()),
        rulerun(&standard_input(&book, 0, &given)),
    ]
}

const ABOVE: [&str; 5] = [
    "2147483647 + 1",
    "2147483647 + 2147483647",
    "1 - -2147483647",
    "0 - -2147483648",
    "--2147483648",
];

const BELOW: [&str; 4] = [
    "-2147483648 + -1",
    "-2147483648 + -2147483648",
    "-2147483648 - 1",
    "-2 - 2147483647",
];

/// Where the operation `E` stands, and how many scopes are entered.
const PLACES: [(&str, usize); 10] = [
    ("define x as E", 1),
    ("define x as 1 + (0 - E)", 1),
    ("define x under condition 0 < E as 0", 1),
    ("define x as if E = 0 then 0 else 0", 1),
    ("define x as if no then 2147483647 + 2 else E", 1),
    ("define x as default [E | yes : 0]", 1),
    ("define x as default [ | 0 < E : 0]", 1),
    ("define x as 0 exception define x as E", 1),
    ("sub-scope k : t define k.y as E define x as 0", 1),
    ("sub-scope k : u define x as k.y", 2),
];

fn ends(operation: &str, side: &str, bound: &str) {
    let called = "scope t variable y : number scope u variable y : number define y as E";
    for (place, entered) in PLACES {
        let text = format!("scope s variable x : number {place} {called}");
        let text = text.replace('E', &format!("({operation})"));
        let [full, brief, printed] = evaluated(&text);
        let why = format!("'{operation}' is {side} {bound}\n");
        let end = format!("the run ends {side} the range; scopes entered: {entered}\n");
        for explained in [full, brief] {
            assert!(explained.contains(&why), "{text}\n{explained}");
            assert!(explained.ends_with(&end), "{text}\n{explained}");
        }
        assert_eq!(printed, format!("{side} {entered}\n"), "{text}");
    }
}

#[test]
fn the_side_is_that_of_the_exact_result() {
    for operation in ABOVE {
        ends(operation, "above", "2147483647");
    }
    for operation in BELOW {
        ends(operation, "below", "-2147483648");
    }
}

/// The run ends in what is met first, and both sides are met.
#[test]
fn what_is_met_first_is_told() {
    let (above, below) = ("(2147483647 + 1)", "(-2147483648 - 1)");
    for (expression, end) in [
        (format!("{above} + {below}"), "above the range"),
        (format!("{below} - {above}"), "below the range"),
        (
            format!("default [{below}, {above} | yes : 0]"),
            "below the range",
        ),
        (
            format!("default [1, 2, {above} | yes : 0]"),
            "above the range",
        ),
        (format!("conflict + {below}"), "in conflict"),
        (
            format!("default [{above}, conflict | yes : 0]"),
            "above the range",
        ),
        (
            format!("default [ | {above} = 0 : {below}]"),
            "above the range",
        ),
    ] {
        let text = format!("scope s variable x : number define x as {expression}");
        let [full, brief, printed] = evaluated(&text);
        let last = format!("\nthe run ends {end}; scopes entered: 1\n");
        for explained in [full, brief] {
            assert!(explained.ends_with(&last), "{expression}\n{explained}");
        }
        let word = end.split_whitespace().find(|&word| word != "in");
        assert_eq!(
            printed,
            format!("{} 1\n", word.expect("a word")),
            "{expression}"
        );
    }
}

#[test]
fn the_greatest_and_the_least_number_are_in_the_range() {
    for (expression, value) in [
        ("2147483646 + 1", "2147483647"),
        ("-1 - -2147483648", "2147483647"),
        ("-(-2147483647)", "2147483647"),
        ("-2147483647 - 1", "-2147483648"),
        ("-2147483648 + 0", "-2147483648"),
        ("-(2147483647) - 1", "-2147483648"),
    ] {
        let text = format!("scope s variable x : number define x as {expression}");
        let [full, _, printed] = evaluated(&text);
        assert!(full.contains(&format!("\nx = {value}, ")), "{full}");
        assert_eq!(printed, format!("value 1\n0 {value}\n"), "{expression}");
    }
}
