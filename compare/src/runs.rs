//! Stored runs of a program: a file of lines `input = output`. The input is in
//! hexadecimal, or a name of the second program's fixed cases in quotes: its book, or
//! after `rulerun` its book as rulerun reads it. Lines of the output are joined by
//! ` / `; `second` stands for what the second program's rulerun prints. A line that
//! begins with `#` is a comment.

use crate::tally::Tally;
use second::cases;
use std::io::Write;
use std::process::{Command, Stdio};

fn fixed(label: &str) -> cases::Case {
    let all = cases::fixed();
    let case = all.iter().find(|case| case.label == label);
    case.unwrap_or_else(|| panic!("no fixed case {label}"))
        .clone()
}

/// Standard input of rulerun: length, book, scope and inputs.
fn announced(case: &cases::Case) -> Vec<u8> {
    let mut input = (case.bytes.len() as u16).to_be_bytes().to_vec();
    input.extend(&case.bytes);
    input.push(case.scope as u8);
    input.extend(&case.inputs);
    input
}

fn quoted(text: &str) -> Option<&str> {
    text.strip_prefix('"').and_then(|t| t.strip_suffix('"'))
}

fn bytes(text: &str) -> Vec<u8> {
    if let Some(label) = quoted(text) {
        return fixed(label).bytes;
    }
    if let Some(label) = text.strip_prefix("rulerun ").and_then(quoted) {
        return announced(&fixed(label));
    }
    let digits: Vec<u8> = text.bytes().filter(|b| *b != b' ' && *b != b'-').collect();
    digits
        .chunks(2)
        .map(|pair| u8::from_str_radix(&String::from_utf8_lossy(pair), 16).expect("hexadecimal"))
        .collect()
}

fn joined(text: &str) -> String {
    text.trim_end().replace('\n', " / ")
}

/// What the program writes, run in at most `stack` KiB of stack.
fn output(program: &str, stack: usize, input: &[u8]) -> String {
    let mut child = Command::new("bash")
        .args(["-c", &format!("ulimit -s {stack}; exec \"$0\""), program])
        .stdin(Stdio::piped())
        .stdout(Stdio::piped())
        .spawn()
        .expect("bash runs");
    let mut stdin = child.stdin.take().expect("piped");
    let input = input.to_vec();
    let writer = std::thread::spawn(move || {
        let _ = stdin.write_all(&input);
    });
    let output = child.wait_with_output().expect("it ends");
    let _ = writer.join();
    let text = String::from_utf8_lossy(&output.stdout);
    if !output.status.success() {
        return format!("{} with {text}", output.status);
    }
    joined(&text)
}

/// Every line of the file, with that much stack.
pub fn run(program: &str, stack: usize, file: &str) -> bool {
    let mut tally = Tally::default();
    let text = std::fs::read_to_string(file).expect("the file of runs");
    for line in text
        .lines()
        .filter(|l| !l.is_empty() && !l.starts_with('#'))
    {
        let (input, expected) = line.split_once(" = ").expect("input = output");
        let input_bytes = bytes(input.trim());
        let expected = match expected {
            "second" => joined(&second::rulerun::rulerun(&input_bytes)),
            text => text.to_string(),
        };
        let found = output(program, stack, &input_bytes);
        let difference = || format!("{input}: {expected} expected, {found} written");
        tally.count(
            &expected,
            (found == expected).then_some(()).ok_or_else(difference),
        );
    }
    tally.finish()
}
