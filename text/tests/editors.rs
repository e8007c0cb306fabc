//! The editors' syntax files have the language's words and signs, and no others.

use std::collections::BTreeSet;
use text::lexer::{SIGNS, WORDS};

fn read(path: &str) -> String {
    let path = format!("{}/editors/{path}", env!("CARGO_MANIFEST_DIR"));
    std::fs::read_to_string(&path).unwrap_or_else(|error| panic!("{path}: {error}"))
}

fn words_of_the_language() -> BTreeSet<String> {
    WORDS.iter().map(|word| word.to_string()).collect()
}

/// What stands in each of a text's patterns between two marks.
fn between<'a>(line: &'a str, open: &str, close: &str) -> Option<&'a str> {
    let rest = line.split_once(open)?.1;
    Some(rest.rsplit_once(close)?.0)
}

#[test]
fn vim_has_every_word() {
    let mut words = BTreeSet::new();
    for line in read("vim/syntax/rulebook.vim").lines() {
        let Some(pattern) = between(line, "\\<", "\\>") else {
            continue;
        };
        let pattern = pattern.replace("\\%(", "").replace("\\)", "");
        if !pattern.starts_with('[') {
            words.extend(pattern.split("\\|").map(str::to_string));
        }
    }
    assert_eq!(words, words_of_the_language());
}

/// Groups that match are given colours, and nothing else is.
#[test]
fn vim_links_every_group() {
    let text = read("vim/syntax/rulebook.vim");
    let names = |prefix: &str| -> BTreeSet<String> {
        let lines = text.lines().filter_map(|line| line.strip_prefix(prefix));
        let names = lines.filter_map(|line| line.split_whitespace().next());
        names.map(str::to_string).collect()
    };
    assert_eq!(names("syn match "), names("hi def link "));
}

fn grammar_patterns() -> Vec<String> {
    let grammar = read("vscode/syntaxes/rules.tmLanguage.json");
    let patterns = grammar
        .lines()
        .filter_map(|line| between(line, "\"match\": \"", "\""));
    patterns.map(str::to_string).collect()
}

#[test]
fn the_grammar_has_every_word_and_sign() {
    let mut words = BTreeSet::new();
    let mut signs = BTreeSet::new();
    for pattern in grammar_patterns() {
        if let Some(group) = between(&pattern, "\\\\b(", ")\\\\b") {
            words.extend(group.split('|').map(str::to_string));
        } else if !pattern.starts_with(['#', '\\']) || pattern.starts_with("\\\\(") {
            let bar = pattern.replace("\\\\|", "BAR").replace("\\\\", "");
            let all = bar.split('|').map(|sign| sign.replace("BAR", "|"));
            signs.extend(all);
        }
    }
    assert_eq!(words, words_of_the_language());
    let expected: BTreeSet<String> = SIGNS.iter().map(|sign| sign.to_string()).collect();
    assert_eq!(signs, expected);
}

/// Brackets and quotes of a JSON file close.
fn is_closed(text: &str) -> bool {
    let (mut open, mut quoted, mut escaped) = (Vec::new(), false, false);
    for c in text.chars() {
        match (quoted, c) {
            (true, _) if escaped => escaped = false,
            (true, '\\') => escaped = true,
            (_, '"') => quoted = !quoted,
            (false, '{' | '[') => open.push(c),
            (false, '}') if open.pop() != Some('{') => return false,
            (false, ']') if open.pop() != Some('[') => return false,
            _ => {}
        }
    }
    open.is_empty() && !quoted
}

#[test]
fn the_files_of_the_extension_close() {
    for file in [
        "vscode/package.json",
        "vscode/language-configuration.json",
        "vscode/syntaxes/rules.tmLanguage.json",
    ] {
        assert!(is_closed(&read(file)), "{file}");
    }
    assert!(read("vscode/package.json").contains("\"path\": \"./syntaxes/rules.tmLanguage.json\""));
}
