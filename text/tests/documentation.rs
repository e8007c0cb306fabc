//! The example of docs/LANGUAGE.md is a book, and its explanations are the printed ones.

use text::brief::explain_briefly;
use text::explain::explain;
use text::inputs::{find_scope, read_inputs};
use text::lexer::WORDS;
use text::reading::to_rulebook;
use text::usage::COMMANDS;

fn read(path: &str) -> String {
    let path = format!("{}/../{path}", env!("CARGO_MANIFEST_DIR"));
    std::fs::read_to_string(path).expect("a file of the project")
}

fn document() -> String {
    read("docs/LANGUAGE.md")
}

/// The indented block that begins with a line, without its indentation.
fn block(text: &str, first: &str) -> String {
    let lines = text.lines().skip_while(|line| line.trim() != first);
    let block = lines.take_while(|line| line.is_empty() || line.starts_with("    "));
    let block: Vec<&str> = block.map(|line| line.get(4..).unwrap_or("")).collect();
    block.join("\n").trim_end().to_string() + "\n"
}

#[test]
fn the_example_is_explained_as_printed() {
    let document = document();
    let book = to_rulebook(&block(&document, "scope film")).expect("a book");
    let film = find_scope(&book, "film").expect("scope film");
    let given = read_inputs(&book, film, &["shrunken=yes", "polyester=no"]).expect("inputs");
    let printed = block(
        &document,
        "vault.rules: scope film, given shrunken = yes, polyester = no",
    );
    assert_eq!(
        explain_briefly(&book, "vault.rules", film, given.clone()),
        printed
    );
    let printed = block(
        &document,
        "scope film, given shrunken = yes, polyester = no",
    );
    assert_eq!(explain(&book, "vault.rules", film, given), printed);
}

#[test]
fn an_override_that_does_not_hold_is_explained_as_printed() {
    let document = document();
    let book = to_rulebook(&block(&document, "scope film")).expect("a book");
    let store = find_scope(&book, "store").expect("scope store");
    let given = read_inputs(&book, store, &["humid=no", "shrunken=yes"]).expect("inputs");
    let first = "vault.rules: scope store, given humid = no, shrunken = yes";
    let printed = block(&document, first);
    assert_eq!(explain_briefly(&book, "vault.rules", store, given), printed);
}

#[test]
fn a_sum_above_the_range_is_explained_as_printed() {
    let book = to_rulebook(&read("examples/loan.rules")).expect("a book");
    let loan = find_scope(&book, "loan").expect("scope loan");
    let inputs = "print_nitrate=no print_only_copy=no print_insured=no print_grade=1 festival=no";
    let mut words: Vec<&str> = inputs.split(' ').collect();
    words.push("renewals=2147483647");
    let given = read_inputs(&book, loan, &words).expect("inputs");
    let explained = explain_briefly(&book, "loan.rules", loan, given);
    let line = explained.lines().find(|line| line.contains("above"));
    let line = format!("`{}`", line.expect("a line"));
    assert!(document().contains(&line), "{line}");
}

#[test]
fn the_grammar_has_every_word() {
    let grammar = block(&document(), "file        = { scope } | { record }");
    for word in WORDS {
        assert!(grammar.contains(&format!("\"{word}\"")), "{word}");
    }
}

#[test]
fn the_commands_are_those_of_the_help() {
    let document = document();
    let lines = document
        .lines()
        .filter_map(|line| line.strip_prefix("    text "));
    let listed: Vec<&str> = lines.filter_map(|line| line.split(' ').next()).collect();
    let commands: Vec<&str> = COMMANDS.iter().map(|command| command.name).collect();
    assert_eq!(listed, commands);
}
