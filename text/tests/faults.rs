//! Every fault is named with its line and column.

use text::reading::to_book;

/// All faults of a text, as printed for a file named `f`.
fn faults(text: &str) -> Vec<String> {
    match to_book(text) {
        Ok(book) => panic!("{book:02x?} from\n{text}"),
        Err(faults) => faults.iter().map(|fault| fault.in_file("f")).collect(),
    }
}

fn fault(text: &str, expected: &str) {
    assert_eq!(faults(text), [expected], "in\n{text}");
}

/// A scope with two variables of each type, then `text` from line 2 on.
fn within(text: &str) -> String {
    format!("scope s variable n : number variable m : number variable y : yes/no variable z : yes/no\n{text}")
}

#[test]
fn syntax() {
    fault(
        "define",
        "f:1:1: expected 'scope' and its name before this, found 'define'",
    );
    fault(
        "Scope s",
        "f:1:1: expected 'scope', found the name 'Scope'; did you mean 'scope'?",
    );
    fault(
        "scope",
        "f:1:6: expected the name of a scope, found the end of the file",
    );
    fault(
        "scope if",
        "f:1:7: 'if' is a word of the language and cannot name a scope",
    );
    fault(
        "scope s\nvariable n number",
        "f:2:12: expected ':', found 'number'",
    );
    fault(
        "scope s variable n : text",
        "f:1:22: expected yes/no or number, found the name 'text'",
    );
    fault(
        "scope s sub-scope k : 7",
        "f:1:23: expected the name of the scope that is called, found the number 7",
    );
    fault(
        &within("label a label"),
        "f:2:9: expected define or rule, found 'label'",
    );
    fault(
        &within("define n = 3"),
        "f:2:10: expected 'as' before the value, found '=', which compares",
    );
    fault(
        &within("define n under y as 3"),
        "f:2:16: expected 'condition', found the name 'y'",
    );
    fault(
        &within("define n as 3 4"),
        "f:2:15: expected variable, sub-scope, label, exception, define, rule, unused or scope, found the number 4",
    );
}

#[test]
fn expressions() {
    let cases = [
        (
            "define n as",
            "f:2:12: expected a number, a name or '(', found the end of the file",
        ),
        (
            "define n as (1",
            "f:2:15: expected ')' for the '(' at 2:13, found the end of the file",
        ),
        (
            "define y as 1 < 2 < 3",
            "f:2:19: only one comparison may stand here; say 'a < b and b < c', or use parentheses",
        ),
        (
            "define y as y = not z",
            "f:2:17: put 'not' and what belongs to it in parentheses here",
        ),
        (
            "define n as 1 + if y then 1 else 2",
            "f:2:17: put 'if' and what belongs to it in parentheses here",
        ),
        (
            "define y as yes/no",
            "f:2:13: yes/no is a type; say yes or no",
        ),
        (
            "define n as if y then 1",
            "f:2:24: expected 'else' for the 'if' at 2:13, found the end of the file",
        ),
        (
            "define n as 2147483648",
            "f:2:13: a number above 2147483647",
        ),
        (
            "define n as -2147483649",
            "f:2:13: a number below -2147483648",
        ),
        (
            "define n as default [1, 2, 3, 4 | y : 5]",
            "f:2:31: a default has at most three exceptions",
        ),
        (
            "define n as default [1 y : 5]",
            "f:2:24: expected '|' for the '[' at 2:21, found the name 'y'",
        ),
        (
            "define n as @ 1 n",
            "f:2:13: there is no node 1 in this scope; the last one is 0",
        ),
        ("define n as @256 n", "f:2:13: 256 is no number of a node"),
        ("define n as @0 @1 n", "f:2:13: a node has one number only"),
        ("define n as @0 1 + @0 2", "f:2:20: another node is @0"),
        (
            "define n as @0 (1 + 2)",
            "f:2:17: this node is @0, and a part of it has a higher number",
        ),
    ];
    for (text, expected) in cases {
        fault(&within(text), expected);
    }
}

/// What a newcomer types, and the remedy.
#[test]
fn remedies() {
    let cases = [
        (
            "define n as 3 under condition y",
            "f:2:15: the condition stands before the value: define .. under condition .. as ..",
        ),
        (
            "if y then define n as 3",
            "f:2:1: a clause begins with define or rule: define .. under condition .. as ..",
        ),
        (
            "rule y as yes",
            "f:2:8: a value belongs to a definition: define .. as ..",
        ),
        ("define n as 1)", "f:2:14: this ')' closes nothing"),
        (
            "define n as (m + 1\ndefine m as 2",
            "f:3:1: expected ')' for the '(' at 2:13, found 'define'",
        ),
        (
            "define n as if y then 1\ndefine m as 2",
            "f:3:1: expected 'else' for the 'if' at 2:13, found 'define'",
        ),
        (
            "define n as if y 1 else 2",
            "f:2:18: expected 'then' for the 'if' at 2:13, found the number 1",
        ),
        (
            "Define n as 1",
            "f:2:1: expected variable, sub-scope, label, exception, define, rule, unused or scope, \
             found the name 'Define'; did you mean 'define'?",
        ),
        (
            "varaible k : number",
            "f:2:1: expected variable, sub-scope, label, exception, define, rule, unused or scope, \
             found the name 'varaible'; did you mean 'variable'?",
        ),
        (
            "variable k : boolean",
            "f:2:14: expected yes/no or number, found the name 'boolean'; write 'yes/no'",
        ),
        (
            "variable k : yes",
            "f:2:14: expected yes/no or number, found 'yes'; write 'yes/no'",
        ),
        (
            "variable only-copy : yes/no",
            "f:2:14: a name has letters, digits and '_', and no '-'",
        ),
        (
            "define y as true",
            "f:2:13: there is no variable 'true' in this scope; write 'yes'",
        ),
        (
            "define y as z and No",
            "f:2:19: there is no variable 'No' in this scope; write 'no'",
        ),
        ("define y as n => 3", "f:2:15: there is no '=>'; write '>='"),
        ("define y as y || z", "f:2:15: there is no '||'; write 'or'"),
        (
            "define n as 3 * m",
            "f:2:15: there is no '*'; numbers are added and subtracted only",
        ),
    ];
    for (text, expected) in cases {
        fault(&within(text), expected);
    }
}

#[test]
fn names_that_are_nearly_right() {
    let scopes = "scope film variable speed : number variable shrunken : yes/no
scope store variable humid : yes/no variable limit : number sub-scope print : film
label usual define limit as print.speed
";
    let cases = [
        (
            "define limit as limitt",
            "f:4:17: there is no variable 'limitt' in this scope; did you mean 'limit'?",
        ),
        (
            "define limit as speed",
            "f:4:17: there is no variable 'speed' in this scope; did you mean 'print.speed'?",
        ),
        (
            "define limit as print.sped",
            "f:4:23: there is no variable 'sped' in scope 'film'; did you mean 'speed'?",
        ),
        (
            "define limit as prints.speed",
            "f:4:17: there is no sub-scope 'prints' in this scope; did you mean 'print'?",
        ),
        (
            "exception to usaul define limit as 1",
            "f:4:14: there is no label 'usaul' in this scope; did you mean 'usual'?",
        ),
        (
            "sub-scope other : flim",
            "f:4:19: there is no scope 'flim'; did you mean 'film'?",
        ),
    ];
    for (text, expected) in cases {
        fault(&format!("{scopes}{text}"), expected);
    }
}

#[test]
fn names() {
    let cases = [
        (
            "define o as 1",
            "f:2:8: there is no variable 'o' in this scope",
        ),
        (
            "define n as o",
            "f:2:13: there is no variable 'o' in this scope",
        ),
        (
            "define k.n as 1",
            "f:2:8: there is no sub-scope 'k' in this scope",
        ),
        ("sub-scope k : t", "f:2:15: there is no scope 't'"),
        (
            "variable n : number",
            "f:2:10: the variable 'n' is there already, at 1:18",
        ),
        ("scope s", "f:2:7: the scope 's' is there already, at 1:7"),
        (
            "sub-scope n : t scope t",
            "f:2:11: 'n' is a variable of this scope already",
        ),
        (
            "sub-scope k : t define n as k scope t",
            "f:2:29: 'k' is a sub-scope; name one of its variables: k.x",
        ),
        (
            "sub-scope k : t define n as k.n scope t",
            "f:2:31: there is no variable 'n' in scope 't'",
        ),
        (
            "label a define n as 1 label a define m as 1",
            "f:2:29: the label 'a' is there already, at 2:7",
        ),
        (
            "exception define n as 1",
            "f:2:1: an exception needs a definition or rule before it",
        ),
        (
            "exception to a define n as 1",
            "f:2:14: there is no label 'a' in this scope",
        ),
        (
            "exception to a define n as 1 label a define n as 2",
            "f:2:14: 'a' does not stand before this exception to it",
        ),
        (
            "define n as 1 exception define m as 1",
            "f:2:15: the clause before this one defines another variable than this exception to it",
        ),
    ];
    for (text, expected) in cases {
        fault(&within(text), expected);
    }
}

#[test]
fn all_faults_of_a_stage_in_order() {
    let text = within("define o as 1\ndefine n as p + q");
    let expected = [
        "f:2:8: there is no variable 'o' in this scope",
        "f:3:13: there is no variable 'p' in this scope",
        "f:3:17: there is no variable 'q' in this scope",
    ];
    assert_eq!(faults(&text), expected);
}

#[test]
fn an_unknown_name_is_said_once() {
    let text = within("define n as 1 exception define o as 2 exception define n as 3");
    fault(&text, "f:2:32: there is no variable 'o' in this scope");
    let text = within("sub-scope k : t define k.n as 1 exception define k.n as k.m");
    fault(&text, "f:2:15: there is no scope 't'");
}

#[test]
fn types() {
    let cases = [
        (
            "define n as yes",
            "f:2:13: the variable defined is a number, and this is a yes/no",
        ),
        (
            "define n under condition 3 as 3",
            "f:2:26: a condition is a yes/no, and this is a number",
        ),
        (
            "define y as not n",
            "f:2:17: what 'not' takes is a yes/no, and this is a number",
        ),
        (
            "define n as -y",
            "f:2:14: what '-' takes is a number, and this is a yes/no",
        ),
        (
            "define n as n + y",
            "f:2:17: what '+' takes is a number, and this is a yes/no",
        ),
        (
            "define y as y and n",
            "f:2:19: what 'and' takes is a yes/no, and this is a number",
        ),
        (
            "define z as y < n",
            "f:2:13: what '<' takes is a number, and this is a yes/no",
        ),
        (
            "define z as y = n",
            "f:2:17: the other side of '=' is a yes/no, and this is a number",
        ),
        (
            "define y as n >= z",
            "f:2:18: what '>=' takes is a number, and this is a yes/no",
        ),
        (
            "define y as z > n",
            "f:2:13: what '>' takes is a number, and this is a yes/no",
        ),
        (
            "define y as z or n",
            "f:2:18: what 'or' takes is a yes/no, and this is a number",
        ),
        (
            "define y as z <> n",
            "f:2:18: the other side of '<>' is a yes/no, and this is a number",
        ),
        (
            "define n as if n then 1 else 2",
            "f:2:16: the condition of an 'if' is a yes/no, and this is a number",
        ),
        (
            "define n as if y then 1 else z",
            "f:2:30: the value of this 'if' is a number, and this is a yes/no",
        ),
        (
            "define n as default [y | yes : 3]",
            "f:2:22: the value of this default is a number, and this is a yes/no",
        ),
        (
            "define n as default [ | 3 : 3]",
            "f:2:25: a justification is a yes/no, and this is a number",
        ),
        (
            "rule n",
            "f:2:1: a rule is for a yes/no variable, and this one is a number",
        ),
        (
            "unused empty",
            "f:2:8: the type is not clear here: say which, as in 'empty number'",
        ),
    ];
    for (text, expected) in cases {
        fault(&within(text), expected);
    }
    let both = faults(&within("define y as empty = conflict"));
    assert_eq!(both.len(), 2, "{both:?}");
}

#[test]
fn rules_and_definitions_on_one_variable() {
    let text = within("define y as yes\nrule y");
    fault(
        &text,
        "f:3:1: a variable has definitions or rules, not both: see 2:1",
    );
}

#[test]
fn cycles() {
    fault(
        "scope a sub-scope k : b\nscope b sub-scope l : a",
        "f:1:19: a scope calls itself: a calls b calls a",
    );
    fault(
        &within("define n as m\ndefine m as 1 + n"),
        "f:2:13: a variable depends on itself: n needs m (at 2:13), m needs n (at 3:17)",
    );
    fault(
        "scope a variable n : number sub-scope k : b define k.n as k.n\nscope b variable n : number",
        "f:1:59: a variable depends on itself: the call of k needs the call of k (at 1:59)",
    );
}

#[test]
fn weight() {
    let mut text = "scope s0".to_string();
    for scope in 1..=12 {
        let called = scope - 1;
        text += &format!("\nscope s{scope} sub-scope a : s{called} sub-scope b : s{called}");
    }
    let expected = "f:13:7: this scope enters 8191 scopes in all, and 4096 are the most";
    assert_eq!(faults(&text), [expected]);
}

#[test]
fn limits() {
    let variables = |count: usize| -> String {
        (0..count)
            .map(|i| format!("variable v{i} : number\n"))
            .collect()
    };
    let scopes = |count: usize| -> String { (0..count).map(|i| format!("scope s{i}\n")).collect() };
    assert!(to_book(&scopes(32)).is_ok());
    fault(&scopes(33), "f:33:1: more than 32 scopes in a book");
    assert!(to_book(&format!("scope s\n{}", variables(32))).is_ok());
    let text = format!("scope s\n{}", variables(33));
    fault(&text, "f:34:1: more than 32 variables in a scope");
    let subscopes: String = (0..9).map(|i| format!("sub-scope k{i} : t\n")).collect();
    let text = format!("scope s\n{subscopes}scope t");
    fault(&text, "f:10:1: more than 8 sub-scopes in a scope");
    let text = format!("scope s variable y : yes/no\n{}", "rule y\n".repeat(129));
    fault(
        &text,
        "f:130:1: more than 128 definitions and rules in a scope",
    );
    assert!(to_book(&format!("scope s\n{}", "unused 1\n".repeat(250))).is_ok());
    let text = format!("scope s\n{}", "unused 1\n".repeat(251));
    fault(&text, "f:252:8: more than 250 nodes in a scope");
    let long = format!(
        "scope s{{}}\n{}",
        "unused default [1, 2, 3 | yes : 4]\n".repeat(41)
    );
    let text: String = (0..32)
        .map(|i| long.replace("{}", &i.to_string()))
        .collect();
    let found = faults(&text);
    assert!(
        found[0].ends_with("the book is longer than 32768 bytes"),
        "{found:?}"
    );
}

#[test]
fn deep_nesting_is_refused_and_not_fatal() {
    let deep = |count: usize| {
        let (open, close) = ("(".repeat(count), ")".repeat(count));
        within(&format!("define n as {open}1{close}"))
    };
    assert!(to_book(&deep(600)).is_ok());
    assert_eq!(faults(&deep(100_000)), ["f:2:713: nested too deeply"]);
    let minus = within(&format!("define n as {}1", "-".repeat(100_000)));
    assert_eq!(faults(&minus), ["f:2:713: nested too deeply"]);
    let sum = within(&format!("define n as 1{}", "+1".repeat(100_000)));
    assert_eq!(faults(&sum).len(), 1);
}

#[test]
fn records() {
    fault("record", "f:1:1: a record begins with its kind");
    fault(
        "record 1\nrecord 21",
        "f:2:1: there is no record of kind 21",
    );
    fault(
        "record 1\nrecord 2",
        "f:2:1: a record of kind 2 has a body of 1 bytes, not 0",
    );
    fault(
        "record 1 record 2 256",
        "f:1:19: 256 is no byte: 255 is the highest",
    );
    fault(
        "record 1\nrecord 4 1\nrecord 2 1\nrecord 4 1",
        "f:3:1: a record out of order, or before the first scope (number 3)",
    );
    fault(
        "record 1 scope s",
        "f:1:10: expected 'record', found 'scope'",
    );
}
