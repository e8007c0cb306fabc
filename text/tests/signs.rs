//! Signs that stand for several nodes, in random expressions: each is the nodes that the
//! language says, and comes back as it was written.

use second::cases::random::Random;
use text::printer::Expressions;
use text::reading::{to_book, to_rulebook};

/// An expression with all parentheses, and the same without the short signs.
fn number(rng: &mut Random, depth: usize) -> [String; 2] {
    match rng.below(if depth == 0 { 2 } else { 5 }) {
        0 => same(rng.below(9).to_string()),
        1 => same("n".to_string()),
        2 => apart(
            ["+", "-"][rng.below(2)],
            number(rng, depth - 1),
            number(rng, depth - 1),
        ),
        3 => number(rng, depth - 1).map(|e| format!("(-({e}))")),
        _ => {
            let [c, a, b] = [
                yes_no(rng, depth - 1),
                number(rng, depth - 1),
                number(rng, depth - 1),
            ];
            [0, 1].map(|i| format!("(if {} then {} else {})", c[i], a[i], b[i]))
        }
    }
}

fn yes_no(rng: &mut Random, depth: usize) -> [String; 2] {
    match rng.below(if depth == 0 { 2 } else { 8 }) {
        0 => same("y".to_string()),
        1 => same("z".to_string()),
        2 => yes_no(rng, depth - 1).map(|e| format!("(not {e})")),
        3 => apart("and", yes_no(rng, depth - 1), yes_no(rng, depth - 1)),
        4 | 5 => {
            let [a, b] = [yes_no(rng, depth - 1), yes_no(rng, depth - 1)];
            let [short, _] = apart("or", a.clone(), b.clone());
            [short, format!("(not ((not {}) and (not {})))", a[1], b[1])]
        }
        _ => {
            let sign = ["<", ">", "<=", ">=", "=", "<>"][rng.below(6)];
            comparison(sign, number(rng, depth - 1), number(rng, depth - 1))
        }
    }
}

fn comparison(sign: &str, a: [String; 2], b: [String; 2]) -> [String; 2] {
    let [short, _] = apart(sign, a.clone(), b.clone());
    let ([_, a], [_, b]) = (a, b);
    let long = match sign {
        ">" => format!("({b} < {a})"),
        "<=" => format!("(not ({b} < {a}))"),
        ">=" => format!("(not ({a} < {b}))"),
        "<>" => format!("(not ({a} = {b}))"),
        sign => format!("({a} {sign} {b})"),
    };
    [short, long]
}

fn same(e: String) -> [String; 2] {
    [e.clone(), e]
}

fn apart(sign: &str, a: [String; 2], b: [String; 2]) -> [String; 2] {
    [0, 1].map(|i| format!("({} {sign} {})", a[i], b[i]))
}

fn text_of(expression: &str) -> String {
    let variables = "variable n : number variable y : yes/no variable z : yes/no";
    format!("scope s {variables} unused {expression}")
}

#[test]
fn short_signs_are_their_nodes_and_come_back() {
    for seed in 0..3000 {
        let [short, long] = yes_no(&mut Random::new(seed), 4);
        let Ok(book) = to_book(&text_of(&short)) else {
            // More nodes than a scope may have.
            assert!(to_book(&text_of(&long)).is_err(), "{long}");
            continue;
        };
        assert_eq!(to_book(&text_of(&long)), Ok(book.clone()), "{short}");
        let named = to_rulebook(&text_of(&short)).expect("a book");
        let last = named.scopes[0].nodes.len() as u8 - 1;
        let shown = Expressions::plain(&named, 0).node(last, 0);
        assert_eq!(
            to_book(&text_of(&shown)),
            Ok(book),
            "{short} shown as {shown}"
        );
        let plain = Expressions::of_nodes(&named, 0).node(last, 0);
        for sign in [" > ", " >= ", " <= ", " <> ", " or "] {
            assert_eq!(shown.contains(sign), short.contains(sign), "{shown}");
            assert!(!plain.contains(sign), "{plain}");
        }
    }
}
